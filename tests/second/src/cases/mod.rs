//! Seeded cases, one maker a call.

mod blinking;
mod colour;
mod counts;
mod dark;
mod dice;
mod gain;
mod held;
mod job;
mod judge;
mod lines;
mod pair;
mod pattern;
mod points;
mod ranking;
mod raw;
mod recode;
mod runs;
mod shapes;
mod sites;
mod spoil;
mod stack;
mod stacks;
mod tables;
mod tally;
mod totals;
mod windows;

pub use dice::Dice;
pub use job::damaged_stream;
pub use tally::Tally;

pub struct Call {
    pub name: &'static str,
    /// The numbers that each run has to reach, 0 being an accepted call.
    pub required: &'static [u64],
    /// Lists of the kinds of cases that each run has to meet besides.
    pub kinds: &'static [&'static [&'static str]],
    pub round: fn(&mut Tally, &mut Dice),
}

pub const CALLS: &[Call] = &[
    Call {
        name: "unpack_raw10",
        required: &[0, 1, 4],
        kinds: &[],
        round: raw::unpack_raw10,
    },
    Call {
        name: "pair_figures",
        required: &[0, 1, 2, 4, 5, 6, 7],
        kinds: &[],
        round: pair::pair_figures,
    },
    Call {
        name: "ranking of pair_figures",
        required: &[0, 1, 2, 4, 5, 6, 7],
        kinds: &[&[
            "equal",
            "equal at other n",
            "neighbours at even n",
            "neighbours at odd n",
            "ranked",
            "ranked at other n",
            "shifted by 0",
            "shifted down",
            "shifted up",
            "swapped",
            "swapped and refused",
            "swapped from one buffer",
        ]],
        round: ranking::ranking_of_pairs,
    },
    Call {
        name: "dark_level",
        required: &[0, 1, 2, 3, 4, 5, 6, 7],
        kinds: &[],
        round: dark::dark_level,
    },
    Call {
        name: "stack_add",
        required: &[0, 1, 2, 3, 4, 5, 6, 11, 12],
        kinds: reference::blinking::ADD_KINDS,
        round: stack::stack_add,
    },
    Call {
        name: "stack_variance",
        required: &[0, 1, 2, 3, 4, 5, 7, 11],
        kinds: reference::blinking::VARIANCE_KINDS,
        round: stack::stack_variance,
    },
    Call {
        name: "blinking_sites",
        required: &[0, 1, 2, 3, 4, 5, 11],
        kinds: reference::blinking::BLINKING_KINDS,
        round: blinking::blinking_sites,
    },
    Call {
        name: "runs of a stack",
        required: &[0, 4, 5, 6, 7, 11, 12],
        kinds: reference::blinking::RUN_KINDS,
        round: runs::runs,
    },
    Call {
        name: "pattern_vertical",
        required: &[0, 1, 2, 3, 4, 5, 8, 9, 11],
        kinds: &[],
        round: pattern::pattern_vertical,
    },
    Call {
        name: "pattern_horizontal",
        required: &[0, 1, 2, 3, 4, 5, 8, 9, 11],
        kinds: &[],
        round: pattern::pattern_horizontal,
    },
    Call {
        name: "find_defects",
        required: &[0, 1, 2, 3, 4, 5, 6],
        kinds: &[],
        round: sites::find_defects,
    },
    Call {
        name: "repair",
        required: &[0, 1, 2, 4, 5, 6],
        kinds: &[],
        round: sites::repair,
    },
    Call {
        name: "defective_rows",
        required: &[0, 1, 2, 4, 5, 6, 9],
        kinds: &[],
        round: lines::defective_rows,
    },
    Call {
        name: "defective_columns",
        required: &[0, 1, 2, 4, 5, 6, 9],
        kinds: &[],
        round: lines::defective_columns,
    },
    Call {
        name: "colour_ratios",
        required: &[0, 1, 2, 3, 4, 5, 6, 7, 9, 10],
        kinds: &[],
        round: colour::colour_ratios,
    },
    Call {
        name: "job",
        required: &[0, 1, 2, 3, 5, 6, 7, 20, 21, 22, 23, 24],
        kinds: &[],
        round: job::job,
    },
    Call {
        name: "count of pair_figures",
        required: &[0, 1, 2, 4, 5, 6, 7],
        kinds: &[
            counts::EVERY_CALL,
            counts::WINDOWS,
            counts::TWO_FRAMES,
            &["in 15 bits", "before 7", "one buffer given twice"],
        ],
        round: pair::counts,
    },
    Call {
        name: "count of dark_level",
        required: &[0, 1, 2, 3, 4, 5, 6],
        kinds: &[counts::EVERY_CALL, counts::WINDOWS, &["beside 3"]],
        round: dark::counts,
    },
    Call {
        name: "count of stack_add",
        required: &[0, 1, 2, 3, 4, 5, 6, 11, 12],
        kinds: &[
            counts::EVERY_CALL,
            counts::WINDOWS,
            &["beside 3", "before 11", "before 12"],
        ],
        round: stack::counts_of_adding,
    },
    Call {
        name: "count of find_defects",
        required: &[0, 1, 2, 3, 4, 5, 6],
        kinds: &[counts::EVERY_CALL, counts::WINDOWS, &["beside 3"]],
        round: sites::counts_of_finding,
    },
    Call {
        name: "count of repair",
        required: &[0, 1, 2, 4, 5, 6],
        kinds: &[counts::EVERY_CALL, counts::WINDOWS],
        round: sites::counts_of_repair,
    },
    Call {
        name: "count of defective_rows",
        required: &[0, 1, 2, 4, 5, 6, 9],
        kinds: &[counts::EVERY_CALL, counts::WINDOWS, &["before 9"]],
        round: lines::counts_of_rows,
    },
    Call {
        name: "count of defective_columns",
        required: &[0, 1, 2, 4, 5, 6, 9],
        kinds: &[counts::EVERY_CALL, counts::WINDOWS, &["before 9"]],
        round: lines::counts_of_columns,
    },
    Call {
        name: "count of colour_ratios",
        required: &[0, 1, 2, 3, 4, 5, 6, 7, 9, 10],
        kinds: &[
            counts::EVERY_CALL,
            counts::WINDOWS,
            &["beside 3", "before 7", "before 9", "before 10"],
        ],
        round: colour::counts,
    },
    Call {
        name: "count of job",
        required: &[0, 1, 2, 3, 5, 6, 7, 20, 21, 22, 23, 24],
        kinds: &[
            counts::EVERY_CALL,
            counts::TWO_FRAMES,
            &[
                "beside 20",
                "beside 21",
                "beside 22",
                "beside 23",
                "beside 24",
                "before 3",
                "before 7",
            ],
        ],
        round: job::counts,
    },
    Call {
        name: "totals of find_defects",
        required: &[0, 1, 2, 3, 4, 5, 6],
        kinds: reference::totals::KINDS,
        round: totals::totals_of_finding,
    },
    Call {
        name: "photon_transfer",
        required: &[0, 3, 7, 13, 14],
        kinds: reference::transfers::KINDS,
        round: gain::photon_transfer,
    },
    Call {
        name: "shading_table",
        required: &[0, 1, 2, 4, 5, 6, 9],
        kinds: reference::blocks::TABLE_KINDS,
        round: tables::shading_table,
    },
    Call {
        name: "count of shading_table",
        required: &[0, 1, 2, 4, 5, 6, 9],
        kinds: &[counts::EVERY_CALL, counts::WINDOWS, &["before 9"]],
        round: tables::counts,
    },
    Call {
        name: "shading_recode",
        required: &[0, 1, 2, 3, 4, 5, 6, 9],
        kinds: reference::blocks::RECODE_KINDS,
        round: recode::shading_recode,
    },
    Call {
        name: "shading_judge",
        required: &[0, 1, 2, 3, 4, 9, 11],
        kinds: reference::shades::KINDS,
        round: judge::shading_judge,
    },
];
