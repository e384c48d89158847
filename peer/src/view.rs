//! What a record shows from outside.

use std::fmt;

#[derive(Clone, Debug, PartialEq, Eq)]
pub struct View {
    pub battery: u8,
    pub state: u8,
    pub command: u8,
    pub override_on: bool,
    pub last: u32,
    pub commands: u32,
    pub test: u8,
    pub failed: u16,
    pub failed_count: u32,
    pub tripped: u8,
    pub contactor: bool,
    pub charged: u64,
    pub discharged: u64,
    /// The long-term store's entry bytes, one after the other.
    pub long: Vec<u8>,
    /// The short-term store's, oldest first.
    pub short: Vec<u8>,
}

impl fmt::Display for View {
    fn fmt(&self, f: &mut fmt::Formatter<'_>) -> fmt::Result {
        writeln!(f, "type {}", self.battery)?;
        writeln!(f, "state {}", self.state)?;
        writeln!(f, "command {}", self.command)?;
        writeln!(f, "override {}", u8::from(self.override_on))?;
        writeln!(f, "last {}", self.last)?;
        writeln!(f, "commands {}", self.commands)?;
        writeln!(f, "test {}", self.test)?;
        writeln!(f, "failed {:04x}", self.failed)?;
        writeln!(f, "failed_count {}", self.failed_count)?;
        writeln!(f, "tripped {:02x}", self.tripped)?;
        writeln!(f, "contactor {}", u8::from(self.contactor))?;
        writeln!(f, "charged {}", self.charged)?;
        writeln!(f, "discharged {}", self.discharged)?;
        writeln!(f, "long {}", hex(&self.long))?;
        writeln!(f, "short {}", hex(&self.short))
    }
}

fn hex(bytes: &[u8]) -> String {
    if bytes.is_empty() {
        return "-".to_string();
    }
    bytes.iter().map(|byte| format!("{byte:02x}")).collect()
}
