//! The two programs: each is given commands on standard input and answers a line for each.
use std::fs::File;
use std::io::{Seek, Write};
use std::path::{Path, PathBuf};
use std::process::{Child, Command, Stdio};

pub struct Program {
    pub name: &'static str,
    pub path: PathBuf,
}

pub struct Running<'a> {
    program: &'a Program,
    child: Child,
}

impl Program {
    /// The commands go through a file in `folder`, so that neither side waits for the other to read.
    pub fn start(&self, folder: &Path, commands: &[&str]) -> Result<Running<'_>, String> {
        let input = self.input(folder, commands).map_err(|error| format!("{}: {error}", folder.display()))?;
        let child = Command::new(&self.path).stdin(input).stdout(Stdio::piped()).spawn();
        let child = child.map_err(|error| format!("{} does not start: {error}", self.path.display()))?;
        Ok(Running { program: self, child })
    }

    fn input(&self, folder: &Path, commands: &[&str]) -> std::io::Result<File> {
        let path = folder.join(format!("fed-to-{}", self.name));
        let mut file = File::options().create(true).truncate(true).read(true).write(true).open(path)?;
        for command in commands {
            writeln!(file, "{command}")?;
        }
        file.rewind()?;
        Ok(file)
    }
}

impl Running<'_> {
    /// An answer for each of `count` commands.
    pub fn answers(self, count: usize) -> Result<Vec<String>, String> {
        let name = self.program.name;
        let output = self.child.wait_with_output().map_err(|error| format!("{name}: {error}"))?;
        if !output.status.success() {
            return Err(format!("{name} ended with {}", output.status));
        }
        let text = String::from_utf8(output.stdout).map_err(|_| format!("{name} wrote bytes that are no text"))?;
        let answers: Vec<String> = text.lines().map(str::to_string).collect();
        if answers.len() != count {
            return Err(format!("{name} wrote {} answers to {count} commands", answers.len()));
        }
        Ok(answers)
    }
}
