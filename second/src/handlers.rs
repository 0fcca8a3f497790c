//! Condition handling (document 01, "Handler rules").

use crate::answer::Action;
use crate::bounds::HIGHEST_CONDITION;
use crate::conditions::Condition;
use crate::names::RequestName;
use std::num::NonZeroU16;

/// "unset, ignore, or a label 1..65535"
#[derive(Clone, Copy, PartialEq, Eq, Debug)]
pub enum Setting {
    /// The general setting decides.
    Unset,
    /// Go on.
    Ignore,
    /// Go to the label.
    Label(NonZeroU16),
}

/// "Each task has a setting for conditions 0..10"; setting 0 is the general one.
type Settings = [Setting; HIGHEST_CONDITION as usize + 1];

const ALL_UNSET: Settings = [Setting::Unset; HIGHEST_CONDITION as usize + 1];

/// The settings of the active tasks. A task not listed has all unset.
#[derive(Debug)]
pub struct Handlers {
    tasks: Vec<(RequestName, Settings)>,
}

impl Handlers {
    /// No task has settings.
    pub fn fresh() -> Self {
        Handlers { tasks: Vec::new() }
    }

    /// Command 15: "10 condition above 10 or label 0".
    pub fn handle(
        &mut self,
        task: RequestName,
        condition: u8,
        label: u16,
    ) -> Result<(), Condition> {
        let label = NonZeroU16::new(label).ok_or(Condition::InvalidRequest)?;
        self.set(task, condition, Setting::Label(label))
    }

    /// Command 16: "10 condition above 10".
    pub fn ignore(&mut self, task: RequestName, condition: u8) -> Result<(), Condition> {
        self.set(task, condition, Setting::Ignore)
    }

    /// Command 17: "10 condition above 10".
    pub fn reset(&mut self, task: RequestName, condition: u8) -> Result<(), Condition> {
        self.set(task, condition, Setting::Unset)
    }

    fn set(&mut self, task: RequestName, condition: u8, setting: Setting) -> Result<(), Condition> {
        if condition > HIGHEST_CONDITION {
            return Err(Condition::InvalidRequest);
        }
        self.settings_mut(task)[usize::from(condition)] = setting;
        Ok(())
    }

    /// "setting c decides; if unset, setting 0; if that is unset too, abend"
    pub fn action(&self, task: RequestName, condition: Condition) -> Action {
        if condition == Condition::Normal {
            return Action::GoOn;
        }
        let settings = self.settings(task);
        let own = settings.get(usize::from(condition.number()));
        let deciding = match own.copied() {
            None | Some(Setting::Unset) => settings[0],
            Some(setting) => setting,
        };
        match deciding {
            Setting::Unset => Action::Abend,
            Setting::Ignore => Action::GoOn,
            Setting::Label(label) => Action::Label(label),
        }
    }

    /// Removes a task's settings with the task, so that a later task of the
    /// same name finds "all are unset at dispatch".
    pub fn remove_task(&mut self, task: RequestName) {
        self.tasks.retain(|(name, _)| *name != task);
    }

    fn settings(&self, task: RequestName) -> &Settings {
        let found = self.tasks.iter().find(|(name, _)| *name == task);
        found.map_or(&ALL_UNSET, |(_, settings)| settings)
    }

    fn settings_mut(&mut self, task: RequestName) -> &mut Settings {
        let found = self.tasks.iter().position(|(name, _)| *name == task);
        let position = found.unwrap_or_else(|| {
            self.tasks.push((task, ALL_UNSET));
            self.tasks.len() - 1
        });
        &mut self.tasks[position].1
    }
}
