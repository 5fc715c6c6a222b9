//! The variables that a build reads and that its tools get, and the names that one setting is looked up by.

use std::env;
use std::ffi::{OsStr, OsString};
use std::process::Command;
use std::sync::{Arc, OnceLock};

type Variables = Vec<(OsString, OsString)>;

/// The variables of the script, as they stood at the first call that wanted them, or those that were set in their place.
#[derive(Clone, Default)]
pub(crate) struct Environment(OnceLock<Arc<Variables>>);

impl Environment {
    /// Variables in place of those of the script. Of a name that comes again the last value counts.
    pub(crate) fn of(variables: impl Iterator<Item = (OsString, OsString)>) -> Environment {
        let mut kept = Variables::new();
        for (name, value) in variables {
            kept.retain(|(known, _)| *known != name);
            kept.push((name, value));
        }
        Environment(OnceLock::from(Arc::new(kept)))
    }

    /// Each variable with its value.
    pub(crate) fn variables(&self) -> &[(OsString, OsString)] {
        self.0.get_or_init(|| Arc::new(env::vars_os().collect()))
    }

    /// The value of a variable.
    pub(crate) fn get(&self, name: &str) -> Option<&OsStr> {
        let found = self.variables().iter().find(|(known, _)| known == name);
        found.map(|(_, value)| value.as_os_str())
    }

    /// Gives a command these variables and no others.
    pub(crate) fn apply(&self, command: &mut Command) {
        command
            .env_clear()
            .envs(self.variables().iter().map(|(name, value)| (name, value)));
    }
}

impl PartialEq for Environment {
    fn eq(&self, other: &Environment) -> bool {
        self.variables() == other.variables()
    }
}

impl std::fmt::Debug for Environment {
    // (a value may be a secret)
    fn fmt(&self, f: &mut std::fmt::Formatter<'_>) -> std::fmt::Result {
        f.write_str("Environment(..)")
    }
}

/// The names that a setting is looked up by: its own, those for target or host, and those that name the target, where it is known.
pub(crate) fn names_of(setting: &str, target: Option<&str>) -> Vec<String> {
    let mut names = vec![
        setting.to_owned(),
        format!("HOST_{setting}"),
        format!("TARGET_{setting}"),
    ];
    if let Some(target) = target {
        names.push(format!("{setting}_{target}"));
        names.push(format!("{setting}_{}", target.replace(['-', '.'], "_")));
    }
    names
}
