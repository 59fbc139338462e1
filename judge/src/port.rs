//! The port as a process of its own.
use crate::case::{Answer, Case};
use std::io::{BufReader, Read, Write};
use std::process::{Child, ChildStdin, ChildStdout, Command, Stdio};

pub struct Port {
    command: Vec<String>,
    child: Child,
    input: Option<ChildStdin>,
    output: BufReader<ChildStdout>,
}

fn start(command: &[String]) -> (Child, Option<ChildStdin>, BufReader<ChildStdout>) {
    let mut child = Command::new(&command[0])
        .args(&command[1..])
        .stdin(Stdio::piped())
        .stdout(Stdio::piped())
        .spawn()
        .unwrap_or_else(|e| panic!("the port's process {command:?} does not start: {e}"));
    let input = child.stdin.take();
    let output = BufReader::with_capacity(1 << 16, child.stdout.take().unwrap());
    (child, input, output)
}

impl Port {
    pub fn new(command: Vec<String>) -> Port {
        let (child, input, output) = start(&command);
        Port { command, child, input, output }
    }

    /// The answers to the cases, in order. Fewer than the cases: the port's process ended at the next one, and was started anew.
    pub fn ask(&mut self, cases: &[Case]) -> Vec<Answer> {
        let mut bytes = Vec::new();
        for case in cases {
            case.encode(&mut bytes);
        }
        bytes.extend([0u8; 12]); // flush
        let mut input = self.input.take().unwrap();
        let writer = std::thread::spawn(move || {
            let _ = input.write_all(&bytes).and_then(|()| input.flush());
            input
        });
        let mut answers = Vec::with_capacity(cases.len());
        for _ in cases {
            match self.answer() {
                Ok(a) => answers.push(a),
                Err(_) => break,
            }
        }
        let input = writer.join().unwrap();
        if answers.len() < cases.len() {
            drop(input);
            let _ = self.child.wait();
            let (child, input, output) = start(&self.command);
            (self.child, self.input, self.output) = (child, input, output);
        } else {
            self.input = Some(input);
        }
        answers
    }

    fn answer(&mut self) -> std::io::Result<Answer> {
        let mut head = [0u8; 8];
        self.output.read_exact(&mut head)?;
        let count = u32::from_le_bytes(head[..4].try_into().unwrap()) as usize;
        let mut cells = vec![0u8; count * 8];
        self.output.read_exact(&mut cells)?;
        let mut bytes = vec![0u8; u32::from_le_bytes(head[4..].try_into().unwrap()) as usize];
        self.output.read_exact(&mut bytes)?;
        let numbers = cells.chunks_exact(8).map(|c| u64::from_le_bytes(c.try_into().unwrap())).collect();
        Ok(Answer { numbers, bytes })
    }
}

impl Drop for Port {
    fn drop(&mut self) {
        drop(self.input.take());
        let _ = self.child.wait();
    }
}
