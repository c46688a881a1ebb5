//! Least and greatest samples of a stack, and its blinking sites (document 02, i): slips that the
//! calls on a stack could make, which cases tell them, and what stacks of one run of frames have to
//! do with each other.
//!
//! Some slips are left out, since they give no other answer. The greater of 0 and the sample for the
//! first frame: that is the sample. Greatest not asked where the sample is below least: past 11 no
//! later sample is above greatest too. The size of the difference for greatest less least: past 11
//! it is not below 0.

use crate::impossible;
use crate::refusals::{lengths, orders, Length, Sides, Test};
use crate::shared::{
    keep, names, refuse_if, settle, surveyed, Answer, Law, Outcome, Refusal, Window,
};
use crate::stack::{blinking_sites, is_impossible, stack_add, stack_variance, Adding, Held, Stack};

/// The four buffers of a stack.
#[derive(Clone, Debug, PartialEq, Eq)]
pub struct Buffers {
    pub sums: Vec<u32>,
    pub squares: Vec<u32>,
    pub least: Vec<u16>,
    pub greatest: Vec<u16>,
}

impl Buffers {
    fn of(stack: &Stack) -> Self {
        Buffers {
            sums: stack.sums.to_vec(),
            squares: stack.squares.to_vec(),
            least: stack.least.to_vec(),
            greatest: stack.greatest.to_vec(),
        }
    }

    fn held(&self, site: usize) -> Held {
        Held {
            s: self.sums[site],
            q: self.squares[site],
            least: self.least[site],
            greatest: self.greatest[site],
        }
    }
}

/// A frame that is offered to a stack.
#[derive(Clone, Copy)]
pub struct Offer<'a> {
    pub stack: Stack<'a>,
    pub frame: &'a [u16],
}

impl Offer<'_> {
    /// What the call answers, and the buffers that it leaves.
    fn added(&self) -> (Answer, Buffers) {
        let mut left = Buffers::of(&self.stack);
        let answer = stack_add(Adding {
            window: Window {
                width: self.stack.width,
                height: self.stack.height,
                full_scale: self.stack.full_scale,
                mask: self.stack.mask,
                frame: self.frame,
            },
            frames: self.stack.frames,
            sums: &mut left.sums,
            squares: &mut left.squares,
            least: &mut left.least,
            greatest: &mut left.greatest,
        });
        (answer, left)
    }

    /// The sites that every buffer has: where a length is wrong, fewer than the window.
    fn sites(&self) -> usize {
        sites_lent(&self.stack).min(self.frame.len())
    }

    /// What a program leaves at a site.
    fn taken(&self, site: usize, take: Take) -> Held {
        let Stack { frames, mask, .. } = self.stack;
        take(frames, mask[site], self.stack.held(site), self.frame[site])
    }
}

fn sites_lent(stack: &Stack) -> usize {
    let lengths = [
        stack.mask.len(),
        stack.sums.len(),
        stack.squares.len(),
        stack.least.len(),
        stack.greatest.len(),
    ];
    lengths.into_iter().min().expect("five lengths")
}

/// What becomes of a site's numbers by a frame, from the frame count, the code, what the stack holds
/// and the sample.
type Take = fn(u64, u8, Held, u16) -> Held;

/// Junk at gaps may wrap.
fn with_sums(held: Held, sample: u16) -> Held {
    let sample = u32::from(sample);
    Held {
        s: held.s.wrapping_add(sample),
        q: held.q.wrapping_add(sample.wrapping_mul(sample)),
        ..held
    }
}

fn with_ends(held: Held, least: u16, greatest: u16) -> Held {
    Held {
        least,
        greatest,
        ..held
    }
}

/// As at a surveyed site.
fn taken_in(frames: u64, held: Held, sample: u16) -> Held {
    let held = with_sums(held, sample);
    match frames {
        0 => with_ends(held, sample, sample),
        _ => with_ends(held, held.least.min(sample), held.greatest.max(sample)),
    }
}

const TAKE: Take = |frames, code, held, sample| match code {
    0 => taken_in(frames, held, sample),
    _ => held,
};

/// Least and greatest of a surveyed site by a slip, all else being right.
fn with_wrong_ends(
    (frames, code, held, sample): (u64, u8, Held, u16),
    ends: impl Fn(Held) -> (u16, u16),
) -> Held {
    let right = TAKE(frames, code, held, sample);
    let (least, greatest) = ends(right);
    match code {
        0 => with_ends(right, least, greatest),
        _ => right,
    }
}

/// A site that is not surveyed, but treated by a slip, and any other one as is right.
fn with_wrong_code(
    (frames, code, held, sample): (u64, u8, Held, u16),
    wrong: u8,
    treat: impl Fn(Held) -> Held,
) -> Held {
    match code {
        code if code == wrong => treat(taken_in(frames, held, sample)),
        _ => TAKE(frames, code, held, sample),
    }
}

const TAKING_SLIPS: &[(&str, Take)] = &[
    // The first frame.
    ("lesser of 0 and the first sample", |k, code, held, p| {
        with_wrong_ends((k, code, held, p), |right| {
            (held.least.min(p), right.greatest)
        })
    }),
    (
        "first frame left out of least and greatest",
        |k, code, held, p| {
            with_wrong_ends((k, code, held, p), |right| match k {
                0 => (0, 0),
                _ => (right.least, right.greatest),
            })
        },
    ),
    ("second frame taken for the first", |k, code, held, p| {
        with_wrong_ends((k, code, held, p), |right| match k {
            1 => (p, p),
            _ => (right.least, right.greatest),
        })
    }),
    ("least of 0 taken for no frame", |k, code, held, p| {
        with_wrong_ends((k, code, held, p), |right| match held.least {
            0 => (p, right.greatest),
            _ => (right.least, right.greatest),
        })
    }),
    ("sum of 0 taken for no frame", |k, code, held, p| {
        with_wrong_ends((k, code, held, p), |right| match held.s {
            0 => (p, p),
            _ => (right.least, right.greatest),
        })
    }),
    // The later ones.
    ("least of the last frame", |k, code, held, p| {
        with_wrong_ends((k, code, held, p), |right| (p, right.greatest))
    }),
    ("greatest of the last frame", |k, code, held, p| {
        with_wrong_ends((k, code, held, p), |right| (right.least, p))
    }),
    ("both of the last frame", |k, code, held, p| {
        with_wrong_ends((k, code, held, p), |_| (p, p))
    }),
    ("least of the first frame", |k, code, held, p| {
        with_wrong_ends((k, code, held, p), |right| match k {
            0 => (p, p),
            _ => (held.least, right.greatest),
        })
    }),
    ("greatest of the first frame", |k, code, held, p| {
        with_wrong_ends((k, code, held, p), |right| match k {
            0 => (p, p),
            _ => (right.least, held.greatest),
        })
    }),
    ("least and greatest exchanged", |k, code, held, p| {
        with_wrong_ends((k, code, held, p), |right| (right.greatest, right.least))
    }),
    ("lesser for greater", |k, code, held, p| {
        with_wrong_ends((k, code, held, p), |right| match k {
            0 => (p, p),
            _ => (right.least, held.greatest.min(p)),
        })
    }),
    ("greater for lesser", |k, code, held, p| {
        with_wrong_ends((k, code, held, p), |right| match k {
            0 => (p, p),
            _ => (held.least.max(p), right.greatest),
        })
    }),
    ("samples in 8 bits", |k, code, held, p| {
        with_wrong_ends((k, code, held, p), |right| {
            (right.least % (1 << 8), right.greatest % (1 << 8))
        })
    }),
    ("least and greatest left", |k, code, held, p| {
        with_wrong_ends((k, code, held, p), |_| (held.least, held.greatest))
    }),
    // Sites that are not surveyed.
    ("gaps added", |k, code, held, p| {
        with_wrong_code((k, code, held, p), 1, |taken| taken)
    }),
    ("defects added", |k, code, held, p| {
        with_wrong_code((k, code, held, p), 2, |taken| taken)
    }),
    ("filled sites added", |k, code, held, p| {
        with_wrong_code((k, code, held, p), 3, |taken| taken)
    }),
    ("sums written at gaps", |k, code, held, p| {
        with_wrong_code((k, code, held, p), 1, |taken| Held { s: taken.s, ..held })
    }),
    ("squares written at gaps", |k, code, held, p| {
        with_wrong_code((k, code, held, p), 1, |taken| Held { q: taken.q, ..held })
    }),
    ("least written at gaps", |k, code, held, p| {
        with_wrong_code((k, code, held, p), 1, |taken| {
            with_ends(held, taken.least, held.greatest)
        })
    }),
    ("greatest written at gaps", |k, code, held, p| {
        with_wrong_code((k, code, held, p), 1, |taken| {
            with_ends(held, held.least, taken.greatest)
        })
    }),
    ("least of gaps cleared", |k, code, held, p| {
        with_wrong_code((k, code, held, p), 1, |_| with_ends(held, 0, held.greatest))
    }),
    ("greatest of gaps cleared", |k, code, held, p| {
        with_wrong_code((k, code, held, p), 1, |_| with_ends(held, held.least, 0))
    }),
    ("gaps cleared by the first frame", |k, code, held, p| {
        with_wrong_code((k, code, held, p), 1, |_| match k {
            0 => with_ends(held, 0, 0),
            _ => held,
        })
    }),
];

/// What cases of adding a frame have to tell.
pub const ADD_KINDS: &[&[&str]] = &[
    impossible::KINDS,
    impossible::KINDS_OF_ONE,
    impossible::KINDS_OF_NONE,
    &names::<{ TAKING_SLIPS.len() }, _>(TAKING_SLIPS),
    &[
        "stack changed at 1",
        "stack changed at 2",
        "stack changed at 3",
        "stack changed at 4",
        "stack changed at 5",
        "stack changed at 6",
        "stack changed at 11",
        "stack changed at 12",
        "ends alone changed at 6",
        "ends alone changed at 11",
        "ends alone changed at 12",
        "stack changed before the place of 6",
        "place of a site at 11",
    ],
    &[
        "2 before 1",
        "3 before 1",
        "4 before 1",
        "5 before 1",
        "6 before 1",
        "11 before 1",
        "12 before 1",
        "3 before 2",
        "4 before 2",
        "5 before 2",
        "6 before 2",
        "11 before 2",
        "12 before 2",
        "4 before 3",
        "5 before 3",
        "6 before 3",
        "11 before 3",
        "12 before 3",
        "5 before 4",
        "6 before 4",
        "11 before 4",
        "12 before 4",
        "6 before 5",
        "11 before 5",
        "12 before 5",
        "11 before 6",
        "12 before 6",
        "12 before 11",
        "mask one too short",
        "mask one too long",
        "frame one too short",
        "frame one too long",
        "sums one too short",
        "sums one too long",
        "squares one too short",
        "squares one too long",
        "least one too short",
        "least one too long",
        "greatest one too short",
        "greatest one too long",
    ],
];

/// What a frame and the stack to which it is offered tell.
pub fn told_of_adding(offer: Offer) -> Vec<String> {
    let stack = &offer.stack;
    let (answer, left) = offer.added();
    let mut buffers = lengths_of(stack);
    buffers.push(Length {
        buffer: "frame",
        lent: offer.frame.len(),
        needed: sides_of(stack).sites(),
    });
    let is_over = |(&code, &sample): (&u8, &u16)| code == 0 && u64::from(sample) > stack.full_scale;
    let tests = [
        (3, stack.frames > 100),
        (6, stack.mask.iter().zip(offer.frame).any(is_over)),
        // A careless program asks for no more than this, and so has to wait for 3.
        (12, stack.frames >= 100),
    ];
    let mut told = told_of_refusals(stack, &tests, &buffers, &answer);
    match answer.number {
        0 => told.extend(taking_slips(offer, &left)),
        _ => told.extend(changes(offer, &answer)),
    }
    told
}

fn taking_slips(offer: Offer, left: &Buffers) -> Vec<String> {
    let differs =
        |take: Take| (0..offer.sites()).any(|site| offer.taken(site, take) != left.held(site));
    assert!(!differs(TAKE), "the parts make up the call");
    let slips = TAKING_SLIPS.iter().filter(|(_, take)| differs(*take));
    slips.map(|(name, _)| name.to_string()).collect()
}

/// What would show where a program writes before it has asked everything.
fn changes(offer: Offer, answer: &Answer) -> Vec<String> {
    let number = answer.number;
    let mut told = vec![];
    let is_changed = |site: usize| offer.taken(site, TAKE) != offer.stack.held(site);
    if (0..offer.sites()).any(is_changed) {
        told.push(format!("stack changed at {number}"));
    }
    let are_ends_changed = |site: usize| {
        let (held, taken) = (offer.stack.held(site), offer.taken(site, TAKE));
        (held.least, held.greatest) != (taken.least, taken.greatest)
    };
    if (0..offer.sites()).any(are_ends_changed) {
        told.push(format!("ends alone changed at {number}"));
    }
    if number == 6 && (0..answer.place as usize).any(is_changed) {
        told.push("stack changed before the place of 6".to_string());
    }
    told
}

fn sides_of(stack: &Stack) -> Sides {
    Sides {
        width: stack.width,
        height: stack.height,
    }
}

fn lengths_of(stack: &Stack) -> Vec<Length> {
    let needed = sides_of(stack).sites();
    let lengths = [
        ("mask", stack.mask.len()),
        ("sums", stack.sums.len()),
        ("squares", stack.squares.len()),
        ("least", stack.least.len()),
        ("greatest", stack.greatest.len()),
    ];
    let lengths = lengths.map(|(buffer, lent)| Length {
        buffer,
        lent,
        needed,
    });
    lengths.into()
}

/// Far beyond the limits, and yet no product of three overflows.
fn narrowed(number: u64) -> u64 {
    number.min(1 << 40)
}

/// The first surveyed site that 11 speaks of, whatever frame count and full scale are.
fn first_impossible(stack: &Stack) -> Option<usize> {
    let (frames, full_scale) = (narrowed(stack.frames), narrowed(stack.full_scale));
    let mut sites = surveyed(&stack.mask[..sites_lent(stack)]);
    sites.find(|&site| is_impossible(stack.held(site), frames, full_scale))
}

/// What a case tells of 11 and of the order of the refusals, `own` being the tests that not every
/// call on a stack has, and `answer` the right one.
fn told_of_refusals(
    stack: &Stack,
    own: &[Test],
    buffers: &[Length],
    answer: &Answer,
) -> Vec<String> {
    let first_impossible = first_impossible(stack);
    let mut tests = vec![
        (1, sides_of(stack).are_illegal()),
        (2, stack.full_scale == 0 || stack.full_scale > 4095),
        (4, buffers.iter().any(|one| one.lent != one.needed)),
        (5, stack.mask.iter().any(|code| *code > 3)),
        (11, first_impossible.is_some()),
    ];
    tests.extend(own);
    tests.sort();
    let first = tests.iter().find(|test| test.1).map_or(0, |test| test.0);
    assert_eq!(first, answer.number, "the tests make up the refusals");
    let mut told = orders(&tests);
    told.extend(lengths(buffers, answer.number));
    // 11 is asked site by site, so large windows tell no more of it, and take long.
    if [0, 11, 12].contains(&answer.number) && stack.mask.len() <= 1024 {
        told.extend(impossible::told(stack).iter().map(|name| name.to_string()));
    }
    if answer.number == 11 && first_impossible > Some(0) {
        told.push("place of a site at 11".to_string());
    }
    told
}

/// What cases of the stack variance have to tell.
pub const VARIANCE_KINDS: &[&[&str]] = &[
    impossible::KINDS,
    &["place of a site at 11", "least and greatest changed"],
    &[
        "2 before 1",
        "3 before 1",
        "4 before 1",
        "5 before 1",
        "7 before 1",
        "11 before 1",
        "3 before 2",
        "4 before 2",
        "5 before 2",
        "7 before 2",
        "11 before 2",
        "4 before 3",
        "5 before 3",
        "7 before 3",
        "11 before 3",
        "5 before 4",
        "7 before 4",
        "11 before 4",
        "7 before 5",
        "11 before 5",
        "11 before 7",
        "mask one too short",
        "mask one too long",
        "sums one too short",
        "sums one too long",
        "squares one too short",
        "squares one too long",
        "least one too short",
        "least one too long",
        "greatest one too short",
        "greatest one too long",
    ],
];

/// What a stack tells of its variance.
pub fn told_of_variance(stack: &Stack) -> Vec<String> {
    let none_surveyed = !stack.mask.contains(&0);
    let tests = [
        (3, stack.frames == 0 || stack.frames > 100),
        // A careless program asks for no more than this, and so has to wait for 3.
        (7, stack.frames < 2 || none_surveyed),
    ];
    told_of_refusals(stack, &tests, &lengths_of(stack), &stack_variance(stack))
}

/// A stack, and the spread from which a site blinks.
#[derive(Clone, Copy)]
pub struct Question<'a> {
    pub stack: Stack<'a>,
    pub spread: u64,
}

/// Counting the blinking sites in parts: a slip has another one.
struct Counter {
    read: fn(Question<'_>) -> Question<'_>,
    /// Refusal 3 by the spread, and by the frame count.
    is_bad_spread: fn(&Question) -> bool,
    is_bad_count: fn(u64) -> bool,
    /// Refusal 7, which the call has not.
    are_few: fn(&Stack) -> bool,
    is_asked: fn(u8) -> bool,
    blinks: fn(Held, &Question) -> bool,
    /// Place and count, from the sites that blink and the count of all sites.
    end: fn(Vec<usize>, usize) -> (u64, usize),
}

const COUNTER: Counter = Counter {
    read: |lent| lent,
    is_bad_spread: |lent| !(1..=4095).contains(&lent.spread),
    is_bad_count: |frames| !(1..=100).contains(&frames),
    are_few: |_| false,
    is_asked: |code| code == 0,
    blinks: |held, lent| size(held) >= lent.spread.into(),
    end: |blinking, _| (0, blinking.len()),
};

/// Greatest less least, below 0 in junk.
fn size(held: Held) -> i128 {
    i128::from(held.greatest) - i128::from(held.least)
}

/// How far s is above so many times least, or below so many times greatest.
fn from_mean(end: u16, held: Held, lent: &Question) -> bool {
    let k = i128::from(lent.stack.frames);
    (k * i128::from(end) - i128::from(held.s)).abs() >= k * i128::from(lent.spread)
}

impl Counter {
    /// Whether 11 applies is asked once for all slips.
    fn answer(&self, lent: Question, is_impossible: bool) -> Answer {
        let lent = (self.read)(lent);
        match self.counted(lent, is_impossible) {
            Err(refusal) => settle(Err(refusal), 1),
            Ok(blinking) => {
                let (place, count) = (self.end)(blinking, lent.stack.mask.len());
                let accepted: Outcome = Ok(vec![count as i128]);
                Answer {
                    place,
                    ..settle(accepted, 1)
                }
            }
        }
    }

    /// The sites that count.
    fn counted(&self, lent: Question, is_impossible: bool) -> Result<Vec<usize>, Refusal> {
        let stack = &lent.stack;
        stack.check_scale()?;
        let is_bad_count = (self.is_bad_count)(stack.frames);
        refuse_if((self.is_bad_spread)(&lent) || is_bad_count, 3)?;
        stack.check_contents()?;
        refuse_if((self.are_few)(stack), 7)?;
        refuse_if(is_impossible, 11)?;
        let counts = |&site: &usize| {
            (self.is_asked)(stack.mask[site]) && (self.blinks)(stack.held(site), &lent)
        };
        Ok((0..stack.mask.len()).filter(counts).collect())
    }
}

type CounterSlip = fn(&mut Counter);

const COUNTER_SLIPS: &[(&str, CounterSlip)] = &[
    // The spread.
    ("> for >=", |wrong| {
        wrong.blinks = |held, lent| size(held) > lent.spread.into()
    }),
    ("one less is enough", |wrong| {
        wrong.blinks = |held, lent| size(held) + 1 >= lent.spread.into()
    }),
    ("just the spread alone", |wrong| {
        wrong.blinks = |held, lent| size(held) == lent.spread.into()
    }),
    ("less than the spread", |wrong| {
        wrong.blinks = |held, lent| size(held) < lent.spread.into()
    }),
    ("least less greatest", |wrong| {
        wrong.blinks = |held, lent| -size(held) >= lent.spread.into()
    }),
    ("least less greatest in 16 bits", |wrong| {
        wrong.blinks = |held, lent| {
            let wrapped = held.least.wrapping_sub(held.greatest);
            u64::from(wrapped) >= lent.spread
        }
    }),
    ("greatest alone", |wrong| {
        wrong.blinks = |held, lent| u64::from(held.greatest) >= lent.spread
    }),
    ("least alone", |wrong| {
        wrong.blinks = |held, lent| u64::from(held.least) >= lent.spread
    }),
    ("full scale less least", |wrong| {
        wrong.blinks = |held, lent| lent.stack.full_scale >= u64::from(held.least) + lent.spread
    }),
    ("greatest less mean", |wrong| {
        wrong.blinks = |held, lent| from_mean(held.greatest, held, lent)
    }),
    ("mean less least", |wrong| {
        wrong.blinks = |held, lent| from_mean(held.least, held, lent)
    }),
    ("differences in 8 bits", |wrong| {
        wrong.blinks = |held, lent| size(held) % (1 << 8) >= lent.spread.into()
    }),
    // The sites.
    ("gaps counted", |wrong| {
        wrong.is_asked = |code| matches!(code, 0 | 1)
    }),
    ("defects counted", |wrong| {
        wrong.is_asked = |code| matches!(code, 0 | 2)
    }),
    ("filled sites counted", |wrong| {
        wrong.is_asked = |code| matches!(code, 0 | 3)
    }),
    ("gaps for surveyed sites", |wrong| {
        wrong.is_asked = |code| code == 1
    }),
    ("first site left out", |wrong| {
        wrong.end = |blinking, _| (0, blinking.iter().filter(|site| **site > 0).count())
    }),
    ("last site left out", |wrong| {
        wrong.end = |blinking, sites| (0, blinking.iter().filter(|site| **site + 1 < sites).count())
    }),
    ("one at most", |wrong| {
        wrong.end = |blinking, _| (0, blinking.len().min(1))
    }),
    ("sites that do not blink", |wrong| {
        wrong.end = |blinking, sites| (0, sites - blinking.len())
    }),
    ("count in 8 bits", |wrong| {
        wrong.end = |blinking, _| (0, blinking.len() % (1 << 8))
    }),
    ("count in 14 bits", |wrong| {
        wrong.end = |blinking, _| (0, blinking.len() % (1 << 14))
    }),
    ("place of the first", |wrong| {
        wrong.end = |blinking, _| {
            let place = blinking.first().copied().unwrap_or(0);
            (place as u64, blinking.len())
        }
    }),
    // Refusals 3 and 7.
    ("spread of 0 accepted", |wrong| {
        wrong.is_bad_spread = |lent| lent.spread > 4095
    }),
    ("spread of 1 refused", |wrong| {
        wrong.is_bad_spread = |lent| !(2..=4095).contains(&lent.spread)
    }),
    ("spread of 4095 refused", |wrong| {
        wrong.is_bad_spread = |lent| !(1..=4094).contains(&lent.spread)
    }),
    ("spread of 4096 accepted", |wrong| {
        wrong.is_bad_spread = |lent| !(1..=4096).contains(&lent.spread)
    }),
    ("any spread accepted", |wrong| {
        wrong.is_bad_spread = |_| false
    }),
    ("spread above full scale refused", |wrong| {
        wrong.is_bad_spread = |lent| {
            let is_above = lent.spread > lent.stack.full_scale;
            is_above || !(1..=4095).contains(&lent.spread)
        }
    }),
    ("spread at full scale refused", |wrong| {
        wrong.is_bad_spread = |lent| {
            let is_full = lent.spread == lent.stack.full_scale;
            is_full || !(1..=4095).contains(&lent.spread)
        }
    }),
    ("spread in 12 bits", |wrong| {
        wrong.read = |lent| Question {
            spread: lent.spread % (1 << 12),
            ..lent
        }
    }),
    ("spread in 16 bits", |wrong| {
        wrong.read = |lent| Question {
            spread: lent.spread % (1 << 16),
            ..lent
        }
    }),
    ("spread in 32 bits", |wrong| {
        wrong.read = |lent| Question {
            spread: lent.spread % (1 << 32),
            ..lent
        }
    }),
    ("no frame accepted", |wrong| {
        wrong.is_bad_count = |frames| frames > 100
    }),
    ("one frame refused", |wrong| {
        wrong.is_bad_count = |frames| !(2..=100).contains(&frames)
    }),
    ("100 frames refused", |wrong| {
        wrong.is_bad_count = |frames| !(1..=99).contains(&frames)
    }),
    ("101 frames accepted", |wrong| {
        wrong.is_bad_count = |frames| !(1..=101).contains(&frames)
    }),
    ("7 for no frame", |wrong| {
        wrong.is_bad_count = |frames| frames > 100;
        wrong.are_few = |stack| stack.frames == 0;
    }),
    ("7 with one frame", |wrong| {
        wrong.are_few = |stack| stack.frames == 1
    }),
    ("7 where no site is surveyed", |wrong| {
        wrong.are_few = |stack| !stack.mask.contains(&0)
    }),
];

/// What cases of counting the blinking sites have to tell, and the relations of two.
pub const BLINKING_KINDS: &[&[&str]] = &[
    impossible::KINDS,
    impossible::KINDS_OF_ONE,
    &names::<{ COUNTER_SLIPS.len() }, _>(COUNTER_SLIPS),
    &[
        "count at 3",
        "count at 5",
        "count at 11",
        "place of a site at 11",
        "greater spread",
    ],
    &[
        "2 before 1",
        "3 before 1",
        "4 before 1",
        "5 before 1",
        "11 before 1",
        "3 before 2",
        "4 before 2",
        "5 before 2",
        "11 before 2",
        "4 before 3",
        "5 before 3",
        "11 before 3",
        "5 before 4",
        "11 before 4",
        "11 before 5",
        "mask one too short",
        "mask one too long",
        "sums one too short",
        "sums one too long",
        "squares one too short",
        "squares one too long",
        "least one too short",
        "least one too long",
        "greatest one too short",
        "greatest one too long",
    ],
];

/// What a stack and a spread tell of the count.
pub fn told_of_blinking(lent: Question) -> Vec<String> {
    let stack = &lent.stack;
    let right = blinking_sites(stack, lent.spread);
    let is_impossible = first_impossible(stack).is_some();
    let parts = COUNTER.answer(lent, is_impossible);
    assert_eq!(parts, right, "the parts make up the call");
    let is_bad_count = stack.frames == 0 || stack.frames > 100;
    let tests = [(3, is_bad_count || lent.spread == 0 || lent.spread > 4095)];
    let mut told = told_of_refusals(stack, &tests, &lengths_of(stack), &right);
    let slips = COUNTER_SLIPS.iter().filter(|(_, slip)| {
        let mut wrong = COUNTER;
        slip(&mut wrong);
        wrong.answer(lent, is_impossible) != right
    });
    told.extend(slips.map(|(name, _)| name.to_string()));
    let mut sites = surveyed(&stack.mask[..sites_lent(stack)]);
    if right.number != 0 && sites.any(|site| (COUNTER.blinks)(stack.held(site), &lent)) {
        told.push(format!("count at {}", right.number));
    }
    told
}

/// What a run of frames into an empty stack has to meet, with one window, mask and full scale.
pub const RUN_KINDS: &[&[&str]] = &[&[
    "frames in another order",
    "least and greatest of the frames",
    "frame in range added",
    "variance of a run",
    "variance of one frame",
    "blinking sites of a run",
    "two frames apart",
    "greater spread",
    "equal frames",
    "one frame",
    "refused frame",
    "junk changed in adding",
    "junk changed in the variance",
    "junk changed in counting",
    "one unit off, refused",
    "one unit off, accepted",
    "one unit off at a gap",
]];

/// Frames that went into an empty stack.
#[derive(Clone, Copy)]
pub struct Run<'a> {
    pub mask: &'a [u8],
    pub frames: &'a [Vec<u16>],
}

impl Run<'_> {
    /// What the frames hold at a site.
    fn samples(&self, site: usize) -> impl Iterator<Item = u16> + '_ {
        self.frames.iter().map(move |frame| frame[site])
    }

    /// Whether two frames differ at a site by at least the spread.
    fn is_apart(&self, site: usize, spread: u64) -> bool {
        let differ = |one: u16| self.samples(site).map(move |other| one.abs_diff(other));
        let mut differences = self.samples(site).flat_map(differ);
        differences.any(|difference| u64::from(difference) >= spread)
    }
}

const ORDER: &str = "frames in another order leave another stack";
const ENDS: &str = "least and greatest are not those of the frames";
const COUNTED_UP: &str = "a frame in range is not taken in";
const POSSIBLE: &str = "what frames in range gave is refused with 11";
const APART: &str = "the count is not that of the sites where two frames are so far apart";
const MORE: &str = "more sites blink at a greater spread";
const NONE: &str = "a site blinks that never changed";
const KEPT: &str = "a refused frame changed the stack";
const UNREAD: &str = "what unsurveyed sites hold changed the answer, or a surveyed site";
const SAME: &str = "least and greatest changed the figures";
const GIVEN: &str = "11 is not given as its conditions say";

/// The same frames, added in two orders, have left these.
pub fn any_order(one: &Buffers, other: &Buffers) -> Law {
    keep(one == other, ORDER)
}

/// Least and greatest of each surveyed site, of a run of one frame or more.
pub fn ends(run: Run, left: &Buffers) -> Law {
    let of_frames = |site| (run.samples(site).min(), run.samples(site).max());
    let of_stack = |site: usize| (Some(left.least[site]), Some(left.greatest[site]));
    let mut sites = surveyed(run.mask);
    keep(sites.all(|site| of_frames(site) == of_stack(site)), ENDS)
}

/// A frame in range is offered to a stack of so many, 99 at most, that frames in range gave.
pub fn counted_up(frames: u64, answer: &Answer) -> Law {
    let right = settle(Ok(vec![i128::from(frames) + 1]), 1);
    keep(*answer == right, COUNTED_UP)
}

/// What any call answers to a stack that frames in range gave.
pub fn possible(answer: &Answer) -> Law {
    keep(answer.number != 11, POSSIBLE)
}

/// The count for this spread, asked of frame against frame.
pub fn apart(run: Run, spread: u64, answer: &Answer) -> Law {
    let sites = surveyed(run.mask).filter(|&site| run.is_apart(site, spread));
    let count = sites.count() as i128;
    keep(*answer == settle(Ok(vec![count]), 1), APART)
}

/// Two answers to one stack, the second to a greater spread.
pub fn never_more(at: &Answer, at_greater: &Answer) -> Law {
    let accepted = at.number == 0 && at_greater.number == 0;
    keep(accepted && at_greater.figures <= at.figures, MORE)
}

/// All frames were equal at surveyed sites.
pub fn none(answer: &Answer) -> Law {
    keep(*answer == settle(Ok(vec![0]), 1), NONE)
}

/// The stack before a frame that is refused, and after.
pub fn kept(before: &Buffers, answer: &Answer, after: &Buffers) -> Law {
    keep(answer.number != 0 && before == after, KEPT)
}

/// Two answers, and what was left, where only unsurveyed sites held something else.
pub fn unread(mask: &[u8], one: (&Answer, &Buffers), other: (&Answer, &Buffers)) -> Law {
    let mut sites = surveyed(mask);
    let same = sites.all(|site| one.1.held(site) == other.1.held(site));
    keep(one.0 == other.0 && same, UNREAD)
}

/// Two variances of the same sums, neither refused.
pub fn same_figures(one: &Answer, other: &Answer) -> Law {
    keep(one.number == 0 && one == other, SAME)
}

/// A stack of a run with one number one unit off, and whether its conditions say so.
pub fn given(is_impossible: bool, answer: &Answer) -> Law {
    keep(is_impossible == (answer.number == 11), GIVEN)
}

#[cfg(test)]
mod tests {
    use super::*;

    fn sorted(mut names: Vec<&str>) -> Vec<&str> {
        names.sort();
        names
    }

    #[test]
    fn no_two_kinds_of_a_call_have_one_name() {
        for kinds in [ADD_KINDS, VARIANCE_KINDS, BLINKING_KINDS, RUN_KINDS] {
            let names = sorted(kinds.concat());
            let mut once = names.clone();
            once.dedup();
            assert_eq!(names, once);
        }
    }

    /// Two frames of full scale 10: 3 8 at site 0, 5 5 at site 1; site 2 holds junk, and site 3 what is
    /// possible there.
    const TWO: Stack = Stack {
        width: 2,
        height: 2,
        full_scale: 10,
        frames: 2,
        mask: &[0, 0, 1, 2],
        sums: &[11, 10, 7, 8],
        squares: &[73, 50, 7, 40],
        least: &[3, 5, 65535, 2],
        greatest: &[8, 5, 1, 9],
    };

    const EMPTY: Stack = Stack {
        frames: 0,
        mask: &[0; 4],
        sums: &[0; 4],
        squares: &[0; 4],
        least: &[0; 4],
        greatest: &[0; 4],
        ..TWO
    };

    fn adding(stack: Stack, frame: &[u16]) -> Vec<String> {
        told_of_adding(Offer { stack, frame })
    }

    fn blinking(stack: Stack, spread: u64) -> Vec<String> {
        told_of_blinking(Question { stack, spread })
    }

    /// Of the names, those that are told.
    fn of<'a>(names: &[&'a str], told: &[String]) -> Vec<&'a str> {
        let names = names.iter().filter(|name| told.contains(&name.to_string()));
        names.copied().collect()
    }

    fn taking(stack: Stack, frame: &[u16]) -> Vec<&'static str> {
        of(ADD_KINDS[3], &adding(stack, frame))
    }

    fn counting(stack: Stack, spread: u64) -> Vec<&'static str> {
        of(BLINKING_KINDS[2], &blinking(stack, spread))
    }

    #[test]
    fn first_frames_tell_zeros() {
        let told = [
            "lesser of 0 and the first sample",
            "first frame left out of least and greatest",
            "least and greatest left",
        ];
        assert_eq!(taking(EMPTY, &[4, 4, 4, 4]), told);
        assert_eq!(taking(EMPTY, &[0; 4]), [""; 0]);
    }

    #[test]
    fn a_sample_between_tells_little() {
        let told = [
            "least of the last frame",
            "greatest of the last frame",
            "both of the last frame",
            "least and greatest exchanged",
            "lesser for greater",
            "greater for lesser",
        ];
        let surveyed = Stack {
            mask: &[0, 0, 2, 3],
            ..TWO
        };
        let told_by = |sample| {
            let all = taking(surveyed, &[sample, 5, 0, 0]);
            let of_codes = ["defects added", "filled sites added"];
            let told = all.into_iter().filter(|name| !of_codes.contains(name));
            told.collect::<Vec<&str>>()
        };
        assert_eq!(told_by(6), told);
        let below = told_by(2);
        assert!(below.contains(&"least of the first frame"));
        assert!(!below.contains(&"least of the last frame"));
        assert!(!below.contains(&"greatest of the first frame"));
        let above = told_by(9);
        assert!(above.contains(&"greatest of the first frame"));
        assert!(!above.contains(&"greatest of the last frame"));
        assert!(!above.contains(&"least of the first frame"));
    }

    #[test]
    fn zeros_tell_what_is_taken_for_no_frame() {
        let dark = Stack {
            sums: &[0; 4],
            squares: &[0; 4],
            least: &[0; 4],
            greatest: &[0; 4],
            ..TWO
        };
        let slips = [
            "least of 0 taken for no frame",
            "sum of 0 taken for no frame",
            "second frame taken for the first",
        ];
        let told = |stack, frame| of(&slips, &adding(stack, frame));
        assert_eq!(told(dark, &[1; 4]), slips[..2]);
        assert_eq!(told(dark, &[0; 4]), [""; 0]);
        assert_eq!(told(TWO, &[6; 4]), [""; 0]);
        let one = Stack { frames: 1, ..dark };
        assert_eq!(told(one, &[1; 4]), slips);
    }

    #[test]
    fn gaps_tell_what_is_written_there() {
        let told = |mask, frame: &[u16]| {
            let stack = Stack { mask, ..TWO };
            of(&ADD_KINDS[3][15..], &adding(stack, frame))
        };
        let gap = [
            "gaps added",
            "sums written at gaps",
            "squares written at gaps",
            "least written at gaps",
            "greatest written at gaps",
            "least of gaps cleared",
            "greatest of gaps cleared",
        ];
        assert_eq!(told(&[0, 0, 1, 0], &[5, 5, 4, 5]), gap);
        assert_eq!(told(&[0, 0, 2, 0], &[5, 5, 4, 5]), ["defects added"]);
        assert_eq!(told(&[0, 0, 3, 0], &[5, 5, 4, 5]), ["filled sites added"]);
        assert_eq!(told(&[0, 0, 3, 0], &[5, 5, 0, 5]), ["filled sites added"]);
        let empty = Stack {
            mask: &[0, 0, 1, 0],
            least: &[0, 0, 5, 0],
            ..EMPTY
        };
        assert!(adding(empty, &[5; 4]).contains(&"gaps cleared by the first frame".into()));
    }

    #[test]
    fn refused_frames_tell_what_is_written_too_early() {
        let told = |stack: Stack, frame: &[u16]| of(ADD_KINDS[4], &adding(stack, frame));
        let over = [
            "stack changed at 6",
            "ends alone changed at 6",
            "stack changed before the place of 6",
        ];
        assert_eq!(told(TWO, &[9, 11, 0, 0]), over);
        assert_eq!(told(TWO, &[11, 5, 0, 0]), over[..2]);
        assert_eq!(told(TWO, &[0, 11, 0, 0]), over);
        let crossed = Stack {
            greatest: &[8, 11, 0, 0],
            ..TWO
        };
        let impossible = [
            "stack changed at 11",
            "ends alone changed at 11",
            "place of a site at 11",
        ];
        assert_eq!(told(crossed, &[9, 5, 0, 0]), impossible);
        assert_eq!(told(crossed, &[8, 5, 0, 0]), [impossible[0], impossible[2]]);
        let full = Stack {
            frames: 100,
            least: &[0; 4],
            ..TWO
        };
        assert_eq!(told(full, &[3, 5, 0, 0]), ["stack changed at 12"]);
        let none = Stack {
            mask: &[1; 4],
            ..full
        };
        assert_eq!(told(none, &[3, 5, 0, 0]), [""; 0]);
    }

    /// Everything that can be wrong, one thing after the other mended.
    #[test]
    fn refusals_tell_their_order() {
        let mut stack = Stack {
            width: 3,
            full_scale: 0,
            frames: 101,
            mask: &[0, 0, 4, 2],
            greatest: &[8, 11, 1],
            ..TWO
        };
        let orders = |stack, frame: &[u16]| of(&ADD_KINDS[5][..28], &adding(stack, frame));
        let bad = [9, 11, 0, 0];
        assert_eq!(orders(stack, &bad), ADD_KINDS[5][..7]);
        stack.width = 2;
        assert_eq!(orders(stack, &bad), ADD_KINDS[5][7..13]);
        stack.full_scale = 10;
        assert_eq!(orders(stack, &bad), ADD_KINDS[5][13..18]);
        stack.frames = 100;
        assert_eq!(orders(stack, &bad), ADD_KINDS[5][18..22]);
        stack.greatest = &[8, 11, 1, 9];
        assert_eq!(orders(stack, &bad), ADD_KINDS[5][22..25]);
        stack.mask = &[0, 0, 1, 2];
        assert_eq!(orders(stack, &bad), ADD_KINDS[5][25..27]);
        assert_eq!(orders(stack, &[9, 9, 0, 0]), ADD_KINDS[5][27..28]);
    }

    #[test]
    fn lengths_are_told_one_by_one() {
        let short = Stack {
            least: &[3, 5, 0],
            ..TWO
        };
        let names = &BLINKING_KINDS[4][15..];
        assert_eq!(of(names, &blinking(short, 1)), ["least one too short"]);
        assert_eq!(
            of(&VARIANCE_KINDS[2][21..], &told_of_variance(&short)),
            ["least one too short"]
        );
        let names = &ADD_KINDS[5][28..];
        assert_eq!(of(names, &adding(TWO, &[5; 5])), ["frame one too long"]);
        assert_eq!(of(names, &adding(short, &[5; 5])), [""; 0]);
    }

    #[test]
    fn spreads_around_a_difference_tell_it() {
        let slips = ["> for >=", "one less is enough", "just the spread alone"];
        let told = |spread| of(&slips, &blinking(TWO, spread));
        assert_eq!(told(4), slips[2..]);
        assert_eq!(told(5), slips[..1]);
        assert_eq!(told(6), slips[1..2]);
        assert_eq!(told(7), [""; 0]);
        assert_eq!(told(1), slips[1..]);
    }

    #[test]
    fn codes_tell_what_is_counted() {
        let slips = ["gaps counted", "defects counted", "filled sites counted"];
        let told = |code| {
            let mask = [0, 0, 1, code];
            of(&slips, &blinking(Stack { mask: &mask, ..TWO }, 5))
        };
        for code in 1..4 {
            let slip = &slips[code as usize - 1..code as usize];
            assert_eq!(told(code), slip);
        }
        let none = Stack {
            mask: &[2, 2, 1, 2],
            ..TWO
        };
        assert!(blinking(none, 5).contains(&"7 where no site is surveyed".into()));
        assert!(!blinking(TWO, 5).contains(&"7 where no site is surveyed".into()));
    }

    #[test]
    fn limits_of_the_spread_are_told() {
        let slips = &BLINKING_KINDS[2][23..];
        assert_eq!(slips[0], "spread of 0 accepted");
        let told = |spread| of(slips, &blinking(TWO, spread));
        assert_eq!(told(0), ["spread of 0 accepted", "any spread accepted"]);
        assert_eq!(told(1), ["spread of 1 refused"]);
        assert_eq!(told(2), [""; 0]);
        assert_eq!(told(10), ["spread at full scale refused"]);
        assert_eq!(told(11), ["spread above full scale refused"]);
        assert_eq!(
            told(4095),
            ["spread of 4095 refused", "spread above full scale refused"]
        );
        assert_eq!(
            told(4096),
            ["spread of 4096 accepted", "any spread accepted"]
        );
        let wide = [
            "spread in 12 bits",
            "spread in 16 bits",
            "spread in 32 bits",
        ];
        assert_eq!(of(&wide, &blinking(TWO, (1 << 12) + 5)), wide[..1]);
        assert_eq!(of(&wide, &blinking(TWO, (1 << 16) + 5)), wide[..2]);
        assert_eq!(of(&wide, &blinking(TWO, (1 << 32) + 5)), wide);
    }

    #[test]
    fn frame_counts_are_told() {
        let slips = &BLINKING_KINDS[2][33..];
        assert_eq!(slips[0], "no frame accepted");
        let counts = |frames, told: &[&str]| {
            let stack = Stack {
                least: &[0; 4],
                sums: &[0; 4],
                frames,
                ..TWO
            };
            assert_eq!(of(slips, &blinking(stack, 2)), told);
        };
        counts(1, &["one frame refused", "7 with one frame"]);
        counts(2, &[]);
        counts(100, &["100 frames refused"]);
        counts(101, &["101 frames accepted"]);
        counts(102, &[]);
        let empty = of(slips, &blinking(EMPTY, 1));
        assert_eq!(empty, ["no frame accepted", "7 for no frame"]);
    }

    #[test]
    fn one_blinking_site_tells_the_size_of_a_difference() {
        let told = counting(TWO, 3);
        for slip in [
            "least less greatest",
            "greatest alone",
            "least alone",
            "full scale less least",
            "greatest less mean",
            "mean less least",
        ] {
            assert!(told.contains(&slip), "{slip}");
        }
        assert!(!told.contains(&"least less greatest in 16 bits"));
        assert!(counting(TWO, 6).contains(&"least less greatest in 16 bits"));
        let level = Stack {
            mask: &[1, 0, 1, 2],
            ..TWO
        };
        let told = ["less than the spread", "sites that do not blink"];
        assert_eq!(counting(level, 9), told);
    }

    #[test]
    fn a_count_in_a_refusal_is_told() {
        let names = &BLINKING_KINDS[3][..3];
        let code = Stack {
            mask: &[0, 0, 4, 0],
            ..TWO
        };
        assert_eq!(of(names, &blinking(code, 5)), ["count at 5"]);
        assert_eq!(of(names, &blinking(code, 9)), [""; 0]);
        let crossed = Stack {
            greatest: &[8, 11, 0, 0],
            ..TWO
        };
        assert_eq!(of(names, &blinking(crossed, 5)), ["count at 11"]);
    }

    fn buffers(held: &[Held]) -> Buffers {
        Buffers {
            sums: held.iter().map(|one| one.s).collect(),
            squares: held.iter().map(|one| one.q).collect(),
            least: held.iter().map(|one| one.least).collect(),
            greatest: held.iter().map(|one| one.greatest).collect(),
        }
    }

    fn accepted(count: i128) -> Answer {
        settle(Ok(vec![count]), 1)
    }

    fn refused(number: u64) -> Answer {
        settle(Err(Refusal::new(number, 0)), 1)
    }

    #[test]
    fn frames_are_compared_two_by_two() {
        let frames = [vec![3, 5, 0], vec![8, 5, 9], vec![4, 6, 0]];
        let run = Run {
            mask: &[0, 0, 1],
            frames: &frames,
        };
        for (spread, count) in [(1, 2), (2, 1), (5, 1), (6, 0)] {
            assert_eq!(apart(run, spread, &accepted(count)), Ok(()));
            assert_eq!(apart(run, spread, &accepted(count + 1)), Err(APART));
        }
        let held = |least, greatest| Held {
            s: 0,
            q: 0,
            least,
            greatest,
        };
        let right = [held(3, 8), held(5, 6), held(1, 1)];
        assert_eq!(ends(run, &buffers(&right)), Ok(()));
        let wrong = [held(3, 8), held(0, 6), held(1, 1)];
        assert_eq!(ends(run, &buffers(&wrong)), Err(ENDS));
    }

    #[test]
    fn laws_of_two_answers() {
        assert_eq!(never_more(&accepted(2), &accepted(2)), Ok(()));
        assert_eq!(never_more(&accepted(2), &accepted(3)), Err(MORE));
        assert_eq!(never_more(&accepted(2), &refused(3)), Err(MORE));
        assert_eq!(none(&accepted(0)), Ok(()));
        assert_eq!(none(&accepted(1)), Err(NONE));
        assert_eq!(counted_up(99, &accepted(100)), Ok(()));
        assert_eq!(counted_up(99, &accepted(99)), Err(COUNTED_UP));
        assert_eq!(counted_up(99, &refused(11)), Err(COUNTED_UP));
        assert_eq!(possible(&refused(7)), Ok(()));
        assert_eq!(possible(&refused(11)), Err(POSSIBLE));
        assert_eq!(given(true, &refused(11)), Ok(()));
        assert_eq!(given(false, &refused(11)), Err(GIVEN));
        assert_eq!(given(true, &accepted(1)), Err(GIVEN));
        assert_eq!(same_figures(&accepted(1), &accepted(1)), Ok(()));
        assert_eq!(same_figures(&accepted(1), &accepted(2)), Err(SAME));
        assert_eq!(same_figures(&refused(11), &refused(11)), Err(SAME));
    }

    #[test]
    fn laws_of_two_stacks() {
        let held = |s| Held {
            s,
            q: 0,
            least: 0,
            greatest: 0,
        };
        let (one, other) = (buffers(&[held(1), held(2)]), buffers(&[held(1), held(3)]));
        assert_eq!(any_order(&one, &one), Ok(()));
        assert_eq!(any_order(&one, &other), Err(ORDER));
        assert_eq!(kept(&one, &refused(6), &one), Ok(()));
        assert_eq!(kept(&one, &refused(6), &other), Err(KEPT));
        assert_eq!(kept(&one, &accepted(1), &one), Err(KEPT));
        let answer = accepted(1);
        let law = |mask: &[u8], again: &Answer| unread(mask, (&answer, &one), (again, &other));
        assert_eq!(law(&[0, 1], &answer), Ok(()));
        assert_eq!(law(&[0, 0], &answer), Err(UNREAD));
        assert_eq!(law(&[0, 1], &accepted(2)), Err(UNREAD));
    }
}
