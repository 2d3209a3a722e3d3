//! The sorts of rounds: their form, and whether their institutes list their own steps.

use second::form::Form;
use second::reading::Round;
use second::steps::LISTED;

/// A form, and whether the policy is 2.
#[derive(Clone, Copy, Debug, PartialEq, Eq)]
pub struct Sort {
    pub form: Form,
    pub own_steps: bool,
}

impl Sort {
    /// Rounds of a form under policies 0 and 1.
    pub const fn by_policy(form: Form) -> Self {
        let own_steps = false;
        Sort { form, own_steps }
    }

    /// Rounds of a form whose institutes list their own steps.
    pub const fn with_steps(form: Form) -> Self {
        let own_steps = true;
        Sort { form, own_steps }
    }

    /// All sorts.
    pub const ALL: [Sort; 4] = [
        Sort::by_policy(Form::Narrow),
        Sort::by_policy(Form::Wide),
        Sort::with_steps(Form::Narrow),
        Sort::with_steps(Form::Wide),
    ];

    /// The sort of a round.
    pub fn of(round: &Round) -> Sort {
        Sort {
            form: round.form,
            own_steps: round.policy == LISTED,
        }
    }

    /// The name of a class of cases of the sort.
    pub fn named(self, name: &str) -> String {
        match (self.form, self.own_steps) {
            (Form::Narrow, false) => name.to_string(),
            (Form::Wide, false) => format!("wide {name}"),
            (Form::Narrow, true) => format!("steps {name}"),
            (Form::Wide, true) => format!("wide steps {name}"),
        }
    }

    /// The name of a class of made files of the sort.
    pub fn of_files(self, name: &str) -> String {
        self.named(name).replace(' ', "-")
    }
}
