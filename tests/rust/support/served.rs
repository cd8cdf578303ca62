//! The archive's functions, called by `tests/rust/serve.rs` in a process that an emulator runs.

use super::asked::{Asked, Told};
use std::io::{BufReader, BufWriter};
use std::process::{ChildStdin, ChildStdout, Command, Stdio};

pub struct Archive {
    to: BufWriter<ChildStdin>,
    from: BufReader<ChildStdout>,
}

impl Archive {
    /// The emulator and the program are named by the environment; the process ends with this.
    pub fn new() -> Archive {
        let named = |name: &str| std::env::var_os(name).unwrap_or_else(|| panic!("no {}", name));
        let process = Command::new(named("OORLICHDAY_EMULATOR"))
            .arg(named("OORLICHDAY_SERVER"))
            .stdin(Stdio::piped())
            .stdout(Stdio::piped())
            .spawn()
            .expect("the emulator starts");
        Archive {
            to: BufWriter::with_capacity(1 << 16, process.stdin.expect("piped")),
            from: BufReader::with_capacity(1 << 16, process.stdout.expect("piped")),
        }
    }

    pub fn call(&mut self, asked: &Asked) -> Told {
        let told = asked.send(&mut self.to).and_then(|()| Told::receive(&mut self.from));
        told.unwrap_or_else(|lost| {
            panic!(
                "no answer of {:?} on {:?} {:?}: {}",
                asked.export, asked.first, asked.second, lost
            )
        })
    }
}
