//! The forms of plans. Request U9: form 2 has the same header and 32 bits a
//! piece, the three old fields and 8 bits of ticks, 1 to 255. A piece of 0
//! ticks is refused with 28, after 8 for the same piece. Request U14: form 3 has
//! form 1's pieces and another header, form 4 bits, R in tenths 5, D 7, L 14, N
//! less one 10; question 3 asks it for 12 to 20 tenths.

use crate::plan::big_endian;

/// Where a field of the header stands: so many bits, above so many others.
#[derive(Clone, Copy, Debug, PartialEq, Eq)]
pub struct Place {
    pub width: u32,
    pub below: u32,
}

/// The header's fields between the form, its highest 4 bits, and the number of
/// tasks less one, its lowest 10.
#[derive(Clone, Copy, Debug, PartialEq, Eq)]
pub struct Layout {
    pub responsiveness: Place,
    pub utilization: Place,
    pub quantum_length: Place,
}

/// Responsiveness 3 bits, utilization 7, quantum length 16.
const OLD: Layout = Layout {
    responsiveness: at(3, 33),
    utilization: at(7, 26),
    quantum_length: at(16, 10),
};

/// Responsiveness 5 bits, utilization 7, quantum length 14.
const GENTLE: Layout = Layout {
    responsiveness: at(5, 31),
    utilization: at(7, 24),
    quantum_length: at(14, 10),
};

pub(crate) const fn at(width: u32, below: u32) -> Place {
    Place { width, below }
}

/// A form of plans.
#[derive(Clone, Copy, Debug, PartialEq, Eq)]
pub struct Form {
    /// The header's form field.
    pub number: u64,
    pub layout: Layout,
    /// The least and the greatest responsiveness that question 3 lets pass.
    pub least: u64,
    pub most: u64,
    /// Whether the responsiveness is in tenths.
    pub in_tenths: bool,
    /// The bytes of a task.
    pub task_bytes: usize,
    /// Whether the last 8 bits of a task are its ticks. Else it lasts one.
    pub has_ticks: bool,
}

const ONE: Form = Form {
    number: 1,
    layout: OLD,
    least: 2,
    most: 7,
    in_tenths: false,
    task_bytes: 3,
    has_ticks: false,
};

const TWO: Form = Form {
    number: 2,
    task_bytes: 4,
    has_ticks: true,
    ..ONE
};

const THREE: Form = Form {
    number: 3,
    layout: GENTLE,
    least: 12,
    most: 20,
    in_tenths: true,
    ..ONE
};

/// The three forms.
pub const FORMS: [Form; 3] = [ONE, TWO, THREE];

/// When a task is asked for its ticks, question 28.
#[derive(Clone, Copy, Debug, PartialEq, Eq)]
pub enum Asked {
    /// Before 7 of the same task.
    BeforeSeven,
    /// Between 7 and 8 of the same task.
    BeforeEight,
    /// After 8 of the same task.
    AfterEight,
    /// After 7 and 8 of every task.
    AfterTasks,
    /// After 10, as the numbers stand.
    AfterTen,
    /// Never; a task of 0 ticks lasts one.
    Never,
}

/// How the ticks are read.
#[derive(Clone, Copy, Debug, PartialEq, Eq)]
pub enum Ticks {
    /// As they stand.
    Same,
    /// One less, where that is not 0.
    OneLess,
    /// One more, where they are from 1 to 254.
    OneMore,
    /// Without the highest bit.
    SevenBits,
    /// A task lasts one, whatever they are.
    One,
    /// From the first 8 bits of the task.
    First,
}

/// What the bytes of a task say.
#[derive(Clone, Copy, Debug, PartialEq, Eq)]
pub struct TaskBits {
    /// The 24 bits of document 01.
    pub old: u64,
    pub ticks: u8,
}

/// The rule by which plans are read. A test bends it.
#[derive(Clone, Copy, Debug, PartialEq, Eq)]
pub struct Reading {
    pub forms: &'static [Form],
    pub asked: Asked,
    pub ticks: Ticks,
}

/// The request's rule.
const RIGHT: Reading = Reading {
    forms: &FORMS,
    asked: Asked::AfterEight,
    ticks: Ticks::Same,
};

const fn with_forms(forms: &'static [Form]) -> Reading {
    Reading { forms, ..RIGHT }
}

const fn with_asked(asked: Asked) -> Reading {
    Reading { asked, ..RIGHT }
}

const fn with_ticks(ticks: Ticks) -> Reading {
    Reading { ticks, ..RIGHT }
}

/// Form 2 with the bytes of form 1.
const SHORT_TWO: Form = Form { number: 2, ..ONE };

/// The three forms, and form 2 under every number from 4 to 15.
const FROM_FOUR_UP: [Form; 15] = {
    let mut forms = [TWO; 15];
    let mut place = 0;
    while place < forms.len() {
        let number = place as u64 + 1;
        forms[place] = match place {
            0..=2 => FORMS[place],
            _ => Form { number, ..TWO },
        };
        place += 1;
    }
    forms
};

/// The three forms, form 3 with another layout.
const fn with_layout(layout: Layout) -> [Form; 3] {
    [ONE, TWO, Form { layout, ..THREE }]
}

/// The three forms, where question 3 lets other tenths pass.
const fn with_tenths(least: u64, most: u64) -> [Form; 3] {
    let three = Form {
        least,
        most,
        ..THREE
    };
    [ONE, TWO, three]
}

const R_OF_4_BITS: [Form; 3] = with_layout(Layout {
    responsiveness: at(4, 32),
    utilization: at(7, 25),
    quantum_length: at(15, 10),
});

const OLD_D: [Form; 3] = with_layout(Layout {
    utilization: OLD.utilization,
    ..GENTLE
});

const OLD_L: [Form; 3] = with_layout(Layout {
    quantum_length: OLD.quantum_length,
    ..GENTLE
});

const LASTING_THREE: Form = Form {
    task_bytes: 4,
    has_ticks: true,
    ..THREE
};

/// Rules that differ from it in one point each, with what they are.
pub const BENT: [(Reading, &str); 28] = [
    (with_forms(&[ONE, THREE]), "form 2 refused"),
    (
        with_forms(&[ONE, SHORT_TWO, THREE]),
        "form 2 of 3 bytes a task",
    ),
    (with_forms(&FROM_FOUR_UP), "forms from 4 up like form 2"),
    (with_asked(Asked::BeforeSeven), "28 before 7 of its task"),
    (with_asked(Asked::BeforeEight), "28 before 8 of its task"),
    (with_asked(Asked::AfterTasks), "28 after 8 of all tasks"),
    (with_asked(Asked::AfterTen), "28 after 10"),
    (with_asked(Asked::Never), "0 ticks like one"),
    (with_ticks(Ticks::OneLess), "one tick less"),
    (with_ticks(Ticks::OneMore), "one tick more"),
    (with_ticks(Ticks::SevenBits), "7 bits of ticks"),
    (with_ticks(Ticks::One), "one tick each"),
    (with_ticks(Ticks::First), "ticks before the old fields"),
    (with_forms(&[ONE, TWO]), "form 3 refused"),
    (
        with_forms(&[ONE, TWO, Form { number: 3, ..ONE }]),
        "form 3 like form 1",
    ),
    (
        with_forms(&[ONE, TWO, Form { number: 3, ..TWO }]),
        "form 3 like form 2",
    ),
    (
        with_forms(&[ONE, TWO, LASTING_THREE]),
        "form 3 of 4 bytes a task",
    ),
    (with_forms(&with_layout(OLD)), "form 3 with form 1's header"),
    (with_forms(&R_OF_4_BITS), "form 3 with an R of 4 bits"),
    (with_forms(&OLD_D), "form 3 with form 1's D"),
    (with_forms(&OLD_L), "form 3 with an L of 16 bits"),
    (with_forms(&with_tenths(11, 20)), "11 tenths pass"),
    (with_forms(&with_tenths(12, 21)), "21 tenths pass"),
    (with_forms(&with_tenths(0, 20)), "any tenths below 12 pass"),
    (with_forms(&with_tenths(2, 31)), "2 tenths and above pass"),
    (with_forms(&with_tenths(12, 31)), "any tenths above 20 pass"),
    (with_forms(&with_tenths(12, 19)), "20 tenths refused"),
    (with_forms(&with_tenths(13, 20)), "12 tenths refused"),
];

impl Default for Reading {
    fn default() -> Reading {
        RIGHT
    }
}

impl Reading {
    /// The form of a number, if there is one.
    pub fn form(self, number: u64) -> Option<Form> {
        self.forms
            .iter()
            .find(|form| form.number == number)
            .copied()
    }

    /// A task's bytes, taken apart.
    pub fn task(self, form: Form, bytes: &[u8]) -> TaskBits {
        let word = big_endian(bytes);
        if !form.has_ticks {
            return TaskBits {
                old: word,
                ticks: 1,
            };
        }
        let (mut old, mut ticks) = (word >> 8, word as u8);
        match self.ticks {
            Ticks::Same => (),
            Ticks::OneLess => ticks -= u8::from(ticks > 1),
            Ticks::OneMore => ticks = ticks.saturating_add(u8::from(ticks > 0)),
            Ticks::SevenBits => ticks &= 127,
            Ticks::One => ticks = ticks.min(1),
            Ticks::First => (old, ticks) = (word & 0xff_ffff, (word >> 24) as u8),
        }
        if self.asked == Asked::Never {
            ticks = ticks.max(1);
        }
        TaskBits { old, ticks }
    }
}
