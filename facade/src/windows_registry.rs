//! Where the tools of Visual Studio are, which has an answer on Windows alone.

use crate::error::unsaid;
use crate::tool::Tool;
use std::process::Command;

/// The versions of Visual Studio.
#[derive(Debug, PartialEq, Eq, Copy, Clone)]
#[non_exhaustive]
pub enum VsVers {
    /// Version 12 of 2013.
    #[deprecated = "no call answers it"]
    Vs12,
    /// Version 14 of 2015.
    Vs14,
    /// Version 15 of 2017.
    Vs15,
    /// Version 16 of 2019.
    Vs16,
    /// Version 17 of 2022.
    Vs17,
    /// Version 18 of 2026.
    Vs18,
}

fn only_elsewhere(call: &str) {
    if cfg!(windows) {
        unsaid(call, "it doesn't look for Visual Studio");
    }
}

/// The command of a tool: none, and on Windows the call ends the script (status 101).
pub fn find(_arch_or_target: &str, _tool: &str) -> Option<Command> {
    only_elsewhere("windows_registry::find");
    None
}

/// The tool: none, and on Windows the call ends the script (status 101).
pub fn find_tool(_arch_or_target: &str, _tool: &str) -> Option<Tool> {
    only_elsewhere("windows_registry::find_tool");
    None
}

/// The version: refused, and on Windows the call ends the script (status 101).
pub fn find_vs_version() -> Result<VsVers, String> {
    only_elsewhere("windows_registry::find_vs_version");
    Err("Visual Studio is on Windows alone".into())
}
