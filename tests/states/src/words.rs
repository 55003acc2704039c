//! A state that a set holds of all of a texture: whether the set is well formed.
use crate::case::{numbers, Case};
use crate::library::{Set, COUNTS, END, LAYERS, MIPS, OWNED, START};
use crate::tally::Tally;

/// How a set holds every other texture.
enum Others {
    Whole,
    InRanges,
    /// It does not own them, and their words are nonsense.
    Unowned,
}

/// What stands beside the texture that is looked at: so many textures in all, each in a state that fits.
struct Company {
    name: &'static str,
    textures: u32,
    state: fn(&Case, usize) -> u32,
    others: Others,
}

const COMPANY: [Company; 5] = [
    Company { name: "alone", textures: 1, state: |case, _| case.flags.uninitialized, others: Others::Whole },
    Company { name: "beside one exclusive state", textures: 64, state: |case, _| case.exclusive(0), others: Others::Whole },
    Company { name: "beside several exclusive states", textures: 64, state: Case::exclusive, others: Others::Whole },
    Company { name: "beside several, some in ranges", textures: 5, state: Case::exclusive, others: Others::InRanges },
    Company { name: "beside several and nonsense that is not owned", textures: 64, state: Case::exclusive, others: Others::Unowned },
];

pub fn compare(case: &Case, tally: &mut Tally) {
    for company in &COMPANY {
        let mut set = Set::tracker(company.textures, 1, 1, case.flags);
        for i in places(company.textures as usize, case.thorough) {
            seat(&mut set, case, company);
            set.own(i, 1, (company.state)(case, i));
            look(&mut set, case, company, i, tally);
        }
    }
}

/// The middle; where all is looked at, the first and the last too.
fn places(textures: usize, thorough: bool) -> Vec<usize> {
    let mut places = if thorough { vec![0, textures / 2, textures - 1] } else { vec![textures / 2] };
    places.dedup();
    places
}

fn seat(set: &mut Set, case: &Case, company: &Company) {
    for i in 0..company.textures as usize {
        let state = (company.state)(case, i);
        set.own(i, 1, state);
        match company.others {
            Others::InRanges if i % 2 == 1 => part(set, case, i, state),
            Others::Unowned if i % 2 == 1 => disown(set, case, i),
            _ => {}
        }
    }
}

/// Makes a texture one of ranges: its only layer is one.
fn part(set: &mut Set, case: &Case, i: usize, state: u32) {
    for half in [START, END] {
        set.table[half + i] = case.flags.complex;
        set.table[half + COUNTS + 16 * i] = 1;
    }
    for ranges in [&mut set.starts, &mut set.ends] {
        ranges[3 * i..3 * i + 3].copy_from_slice(&[0, 1, state]);
    }
}

fn disown(set: &mut Set, case: &Case, i: usize) {
    let nonsense = [0, u32::MAX, case.flags.complex, case.flags.unknown, 0xFFFF, 0x1_0001][i / 2 % 6];
    for word in [MIPS + i, LAYERS + i, START + i, END + i, START + COUNTS + 16 * i, END + COUNTS + 16 * i] {
        set.table[word] = nonsense;
    }
    set.table[OWNED + i] = 0;
}

fn look(set: &mut Set, case: &Case, company: &Company, i: usize, tally: &mut Tally) {
    let other = (company.state)(case, i);
    for word in numbers() {
        let wanted = case.whole_fits(word);
        for (what, start, end) in [("start", word, other), ("end", other, word), ("start and end", word, word)] {
            set.table[START + i] = start;
            set.table[END + i] = end;
            let place = || format!("a tracker's {what}, texture {i}, {}: well formed", company.name);
            tally.compare(word, set.is_tracker(), wanted, case.flags, place);
        }
        let place = || format!("a scope's texture {i}, {}: well formed", company.name);
        tally.compare(word, set.is_scope(), wanted, case.flags, place);
    }
}
