//! Wrong answers, to see that each row finds them (`row.rs`): each is one thing wrong with a right answer.
use super::entries::{Connected, Refused, Swept};
use crate::row::Tale;

type Answer = Result<String, Refused>;

/// Of runs that are beside the Rust's own, none of which is refused.
pub const OF_THE_SWEEP: &[Tale<Swept>] = &[
    ("a partner is another record at its point", |swept| relinked(swept, |m| m[0] == 1, 3)),
    ("a right end's partner is another record at its point", |swept| relinked(swept, |m| m[0] != 1, 3)),
    ("a below link leads to another record at its point", |swept| relinked(swept, |m| m[4] == 1, 5)),
    ("a below link is left out", |swept| changed(swept, |m| m[4] == 1, |m| m[4] = 0)),
    ("a contour number", |swept| changed(swept, |_| true, |m| m[10] = 1)),
    ("another transition", |swept| changed(swept, |m| m[7] != 0, |m| m[7] = 3 - m[7])),
    ("another edge type", |swept| changed(swept, |m| m[6] != 0, |m| m[6] = 0)),
    ("another in-out", |swept| changed(swept, |m| m[0] == 1, |m| m[8] = 1 - m[8])),
    ("another ring", |swept| changed(swept, |_| true, |m| m[2] ^= 1)),
    ("a last digit of a point", |swept| {
        swept.taken.last().is_some_and(|r| {
            next(&mut swept.pool.points[*r as usize][1]);
            true
        })
    }),
    ("two taken in the other order", |swept| {
        let is_told = swept.taken.len() > 1;
        if is_told {
            swept.taken.swap(0, 1);
        }
        is_told
    }),
    ("one division more", |swept| {
        swept.divisions += 1;
        true
    }),
];

/// And of those beside 01's rules.
pub const OF_THE_RULES: &[Tale<Swept>] = &[
    ("a tie is told otherwise", |swept| {
        swept.tied = !swept.tied;
        true
    }),
    ("refused by 99 at 12345", |swept| swept.refused.replace((99, 12345)).is_some()),
    ("a run that is refused is answered", |swept| swept.refused.take().is_some()),
    ("another place of 6", |swept| moved(&mut swept.refused, 6)),
    ("another place of 7", |swept| moved(&mut swept.refused, 7)),
    ("a division less before a refusal", |swept| {
        let is_told = swept.refused.is_some() && swept.divisions > 0;
        swept.divisions -= is_told as usize;
        is_told
    }),
];

pub const OF_CONNECTION: &[Tale<Connected>] = &[
    ("refused by 99 at 12345", |ours| ours.refused.replace((99, 12345)).is_some()),
    ("a list that is refused is answered", |ours| ours.refused.take().is_some()),
    ("another place of 8", |ours| moved(&mut ours.refused, 8)),
    ("another place of 9", |ours| moved(&mut ours.refused, 9)),
    ("a contour less before 9", |ours| ours.refused.is_some() && ours.contours.pop().is_some()),
    ("a false contour number", |ours| ours.refused.is_none() && marked(ours, |m| m[10] == 1, |m| m[11] += 1)),
    ("a contour number is missing", |ours| ours.refused.is_none() && marked(ours, |m| m[10] == 1, |m| m[10] = 0)),
    ("a contour number is not forgotten", |ours| ours.refused.is_none() && marked(ours, |m| m[10] != 1, |m| m[10] = 1)),
    ("a mark beside the contour's", |ours| marked(ours, |_| true, |m| m[9] = 1 - m[9])),
    ("a last digit of a corner", |ours| {
        ours.corners.last_mut().is_some_and(|corner| {
            next(&mut corner[0]);
            true
        })
    }),
    ("a corner more", |ours| {
        ours.corners.push([0.0; 2]);
        true
    }),
    ("a contour starts one corner late", |ours| row(ours, |_| true, |c| c[0] += 1)),
    ("another parent", |ours| row(ours, |_| true, |c| c[2] = !c[2] & 1)),
    ("another depth", |ours| row(ours, |_| true, |c| c[3] += 1)),
    ("a hole is left out", |ours| row(ours, |c| c[5] > 0, |c| c[5] -= 1)),
    ("two holes in the other order", |ours| {
        let two = ours.contours.iter().find(|c| c[5] > 1).map(|c| c[4] as usize);
        two.is_some_and(|first| {
            ours.holes.swap(first, first + 1);
            true
        })
    }),
    ("one open contour more", |ours| {
        ours.unclosed += 1;
        true
    }),
];

pub const OF_TEXTS: &[Tale<Answer>] = &[
    ("refused by 99 at 12345", |answer| {
        answer.as_mut().err().is_some_and(|refused| {
            *refused = (99, 12345);
            true
        })
    }),
    ("another place of 6", |answer| elsewhere(answer, 6)),
    ("another place of 7", |answer| elsewhere(answer, 7)),
    ("another place of 8", |answer| elsewhere(answer, 8)),
    ("another place of 9", |answer| elsewhere(answer, 9)),
    ("another depth", |answer| reworded(answer, "depth 0", "depth 1")),
    ("a hole without a parent", |answer| reworded(answer, "parent 0 ", "parent - ")),
    ("a last digit of a corner", |answer| {
        answer.as_mut().is_ok_and(|text| {
            let is_told = text.contains("points");
            let last = if text.ends_with("1\n") { "2\n" } else { "1\n" };
            text.replace_range(text.len() - 2.., last);
            is_told
        })
    }),
    ("no last line feed", |answer| answer.as_mut().is_ok_and(|text| text.pop().is_some())),
    ("a map that is refused", |answer| {
        let is_told = answer.is_ok();
        *answer = Err((6, 0));
        is_told
    }),
];

fn next(x: &mut f64) {
    *x = if *x == 0.0 { 1.0 } else { x.next_up() };
}

fn moved(refused: &mut Option<Refused>, number: u64) -> bool {
    let told = refused.as_mut().filter(|told| told.0 == number);
    told.is_some_and(|told| {
        told.1 += 1;
        true
    })
}

/// The mark of a taken record that tells another one leads to yet another, taken as well, at the same point.
fn relinked(swept: &mut Swept, has: fn(&[u32; 12]) -> bool, mark: usize) -> bool {
    let (points, marks) = (&swept.pool.points, &swept.pool.marks);
    let found = swept.taken.iter().filter(|r| has(&marks[**r as usize])).find_map(|&r| {
        let told = marks[r as usize][mark];
        let other = swept.taken.iter().find(|&&t| t != told && points[t as usize] == points[told as usize]);
        other.filter(|_| swept.taken.contains(&told)).map(|&other| (r as usize, other))
    });
    found.is_some_and(|(r, other)| {
        swept.pool.marks[r][mark] = other;
        true
    })
}

fn changed(swept: &mut Swept, has: fn(&[u32; 12]) -> bool, change: fn(&mut [u32; 12])) -> bool {
    let found = swept.taken.iter().find(|r| has(&swept.pool.marks[**r as usize]));
    found.is_some_and(|&r| {
        change(&mut swept.pool.marks[r as usize]);
        true
    })
}

fn marked(ours: &mut Connected, has: fn(&[u32; 12]) -> bool, change: fn(&mut [u32; 12])) -> bool {
    ours.marks.iter_mut().find(|m| has(m)).is_some_and(|m| {
        change(m);
        true
    })
}

/// Of the last contour that has it.
fn row(ours: &mut Connected, has: fn(&[u32; 6]) -> bool, change: fn(&mut [u32; 6])) -> bool {
    ours.contours.iter_mut().rev().find(|c| has(c)).is_some_and(|c| {
        change(c);
        true
    })
}

fn elsewhere(answer: &mut Answer, number: u64) -> bool {
    answer.as_mut().err().filter(|told| told.0 == number).is_some_and(|told| {
        told.1 += 1;
        true
    })
}

fn reworded(answer: &mut Answer, from: &str, to: &str) -> bool {
    answer.as_mut().is_ok_and(|text| {
        let is_told = text.contains(from);
        *text = text.replacen(from, to, 1);
        is_told
    })
}
