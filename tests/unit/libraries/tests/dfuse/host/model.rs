//! A model of a device.

use super::flash::{MEMORY, byte_at, erase, write};
use fustrelan::dfuse::session::{Action, Seen};

/// What becomes of an action.
#[derive(Clone, Copy, Debug, PartialEq, Eq)]
pub enum Fate {
    Passes,
    /// The request doesn't come.
    LostOut,
    /// The answer doesn't.
    LostBack,
    /// The request comes twice, and the first answer is lost.
    Twice,
    /// The device restarts before the request comes.
    RestartsBefore,
    /// It restarts right after.
    RestartsAfter,
}

/// A command that came, or runs.
#[derive(Clone, Copy)]
enum Task {
    Nothing,
    SetAddress(usize),
    Erase(usize),
    Write {
        at: usize,
        bytes: [u8; 4],
        len: usize,
    },
}

/// A device.
#[derive(Clone, Copy)]
pub struct Model {
    pub memory: [u8; MEMORY],
    pointer: usize,
    /// bState and bStatus.
    state: u8,
    code: u8,
    task: Task,
    /// The last answer.
    out: [u8; 6],
}

/// What a request leads to.
#[derive(Clone, Copy)]
enum Answer {
    Ack,
    Stall,
    /// So many bytes of `out`.
    Bytes(usize),
}

impl Model {
    /// A device in this state, with a memory of 5Ah.
    pub fn new(state: u8) -> Model {
        Model {
            memory: [0x5a; MEMORY],
            pointer: 0,
            state,
            code: 0,
            task: if state == 3 {
                Task::Erase(40)
            } else {
                Task::Nothing
            },
            out: [0; 6],
        }
    }

    /// The part of the command that is done by its half, or the rest.
    fn run(&mut self, is_rest: bool) {
        match self.task {
            Task::Nothing => {}
            Task::SetAddress(at) => self.pointer = at,
            Task::Erase(at) => {
                erase(&mut self.memory, at, is_rest);
                self.pointer = 47;
            }
            Task::Write { at, bytes, len } => {
                write(&mut self.memory, at, &bytes[..len], is_rest);
                self.pointer = 1;
            }
        }
    }

    /// The device restarts.
    fn restart(&mut self) {
        self.pointer = 0;
        self.state = 2;
        self.code = 0;
        self.task = Task::Nothing;
    }

    /// A request out of place.
    fn refuse(&mut self) -> Answer {
        self.state = 10;
        self.code = 15;
        self.task = Task::Nothing;
        Answer::Stall
    }

    /// DNLOAD.
    fn download(&mut self, block: u8, body: &[u8]) -> Answer {
        if self.state != 2 && self.state != 5 {
            return self.refuse();
        }
        if body.is_empty() {
            self.state = 6;
            return Answer::Ack;
        }
        self.state = 3;
        let address = usize::from(byte_at(body, 1));
        self.task = match byte_at(body, 0) {
            0x21 if block == 0 => Task::SetAddress(address),
            0x41 if block == 0 => Task::Erase(address),
            _ => Task::Write {
                at: self.pointer,
                bytes: std::array::from_fn(|i| byte_at(body, i)),
                len: body.len(),
            },
        };
        Answer::Ack
    }

    /// UPLOAD.
    fn upload(&mut self, block: u8, length: u8) -> Answer {
        if self.state != 2 && self.state != 9 || block < 2 || length > 4 {
            return self.refuse();
        }
        self.state = 9;
        let from = self.pointer + usize::from(block - 2) * 4;
        for i in 0..4 {
            self.out[i] = byte_at(&self.memory, from + i);
        }
        Answer::Bytes(usize::from(length))
    }

    /// GETSTATUS starts a command that came, and finishes one that runs.
    fn status(&mut self) -> Answer {
        if self.state == 3 {
            self.run(false);
            self.state = 4;
        } else if self.state == 4 {
            self.run(true);
            self.task = Task::Nothing;
            self.state = 5;
        } else if self.state == 6 {
            self.state = 7;
        }
        self.out = [self.code, 1, 0, 0, self.state, 0];
        Answer::Bytes(6)
    }

    /// A request comes.
    fn comes(&mut self, setup: [u8; 8], body: &[u8]) -> Answer {
        let [_, request, block, _, _, _, length, _] = setup;
        match request {
            1 => self.download(block, body),
            2 => self.upload(block, length),
            3 => self.status(),
            4 if self.state == 10 => {
                self.restart_idle();
                Answer::Ack
            }
            5 => {
                self.out = [self.state, 0, 0, 0, 0, 0];
                Answer::Bytes(1)
            }
            6 if self.state != 4 && self.state != 10 => {
                self.state = 2;
                self.task = Task::Nothing;
                Answer::Ack
            }
            _ => self.refuse(),
        }
    }

    /// The device is in dfuIDLE again, and its pointer stays.
    fn restart_idle(&mut self) {
        self.state = 2;
        self.code = 0;
        self.task = Task::Nothing;
    }

    /// What is seen of an answer.
    fn seen(&mut self, answer: Answer) -> Seen<'_> {
        match answer {
            Answer::Ack => Seen::Ack,
            Answer::Stall => Seen::Stall,
            Answer::Bytes(count) => Seen::Bytes(&self.out[..count]),
        }
    }

    /// A request comes, with this fate.
    fn carry(&mut self, setup: [u8; 8], body: &[u8], fate: Fate) -> Seen<'_> {
        match fate {
            Fate::Passes => {
                let answer = self.comes(setup, body);
                self.seen(answer)
            }
            Fate::LostOut => Seen::Nothing,
            Fate::LostBack => {
                let _ = self.comes(setup, body);
                Seen::Nothing
            }
            Fate::Twice => {
                let _ = self.comes(setup, body);
                let answer = self.comes(setup, body);
                self.seen(answer)
            }
            Fate::RestartsBefore => {
                self.restart();
                Seen::Restarted
            }
            Fate::RestartsAfter => {
                let _ = self.comes(setup, body);
                self.restart();
                Seen::Restarted
            }
        }
    }

    /// An action is done, with this fate.
    pub fn perform(&mut self, action: Action<'_>, fate: Fate) -> Seen<'_> {
        match (action, fate) {
            (Action::Send { setup, body }, _) => self.carry(setup, body, fate),
            (Action::Command { setup, body }, _) => self.carry(setup, &body, fate),
            (Action::Wait(_), Fate::RestartsBefore | Fate::RestartsAfter) => {
                self.restart();
                Seen::Restarted
            }
            (Action::Wait(_) | Action::Done(_), _) => Seen::Waited,
        }
    }
}
