//! A script in the making, with the state to which it leads if the program
//! makes the documented choices. So most calls can be meaningful ones.

use account::task::{Role, Task};
use account::{Answer, Call, Command, Kind, System, PLACES, SHARES, WHOLE};

use crate::random::Random;

/// A script in the making.
pub struct Draft {
    pub random: Random,
    pub system: System,
    /// The lines so far, without their ends.
    pub lines: Vec<Vec<u8>>,
}

impl Draft {
    pub fn new(random: Random) -> Draft {
        Draft {
            random,
            system: System::default(),
            lines: Vec::new(),
        }
    }

    /// Adds a command. Some numbers are written with leading zeros.
    fn add(&mut self, command: Command) {
        let mut line = command.to_string();
        if self.random.percent(1) {
            line = line.replace(' ', " 00").replacen(" 00r", " r", 1);
            line = line.replacen(" 00f", " f", 1);
        }
        self.lines.push(line.into_bytes());
    }

    /// Adds a line of any bytes but a newline.
    pub fn raw(&mut self, line: Vec<u8>) {
        match account::script::parse(&line) {
            Some(Command::Call(call)) => {
                self.system.call(call);
            }
            Some(Command::Tick(count)) if count < 1000 => self.simulate(count),
            Some(Command::Tick(_) | Command::Any { .. }) => return,
            Some(Command::Had) | None => {}
        }
        self.lines.push(line);
    }

    pub fn call(&mut self, call: Call) -> Answer {
        self.add(Command::Call(call));
        self.system.call(call)
    }

    pub fn ticks(&mut self, count: u32) {
        self.add(Command::Tick(count));
        self.simulate(count);
    }

    fn simulate(&mut self, count: u32) {
        for _ in 0..count {
            self.system.tick().expect("the rules keep their promises");
        }
    }

    pub fn had(&mut self) {
        self.add(Command::Had);
    }

    pub fn any(&mut self, seed: u32, steps: u32) {
        self.add(Command::Any { seed, steps });
        account::play::any(&mut self.system, seed, steps, |_| {})
            .expect("the rules keep their promises");
    }

    /// The places of the tasks for which something holds.
    pub fn all(&self, holds: impl Fn(usize, &Task) -> bool) -> Vec<u32> {
        self.system
            .tasks()
            .filter(|&(place, task)| holds(place, task))
            .map(|(place, _)| place as u32)
            .collect()
    }

    /// A task for which something holds, if there is one.
    pub fn some(&mut self, holds: impl Fn(usize, &Task) -> bool) -> Option<u32> {
        let all = self.all(holds);
        self.random.some_of(&all)
    }

    pub fn count(&self) -> usize {
        self.system.tasks().count()
    }

    /// A task; now and then a number that names none.
    pub fn task(&mut self) -> u32 {
        if self.random.percent(3) {
            return self.strange();
        }
        self.some(|_, _| true).unwrap_or(0)
    }

    /// A lock out of the first few; now and then another number.
    pub fn lock(&mut self, few: u32) -> u32 {
        if self.random.percent(3) {
            return self.strange();
        }
        self.random.below(few)
    }

    /// A number that is mostly out of range, or at its edge.
    pub fn strange(&mut self) -> u32 {
        let any = self.random.below(70);
        let huge = self.random.next() as u32;
        self.random
            .one_of(&[any, any, 62, 63, 64, 65, 127, 128, 255, 256, huge, u32::MAX])
    }

    /// Makes a task and wakes it, mostly.
    pub fn make_awake(&mut self, kind: Kind) {
        if let Answer::Id(place) = self.call(Call::Make(kind)) {
            if self.random.percent(85) {
                self.call(Call::Wake(place as u32));
            }
        }
    }

    /// What is left of the shares.
    pub fn left(&self) -> u32 {
        SHARES - self.system.shares()
    }

    /// A reservation that mostly fits, of a short period.
    pub fn reservation(&mut self) -> Kind {
        let period = self
            .random
            .one_of(&[4, 4, 5, 6, 7, 8, 9, 10, 12, 14, 16, 20]);
        let most = self.left() / (WHOLE / period);
        let quota = match self.random.below(10) {
            0 => self.random.within(0, period + 1),
            1..=4 => most.max(1),
            _ => self.random.within(1, most.max(1)),
        };
        Kind::Reserved { quota, period }
    }

    pub fn fixed(&mut self, ranks: u32) -> Kind {
        let rank = match self.random.percent(3) {
            true => self.random.one_of(&[14, 15, 16, 17, u32::MAX]),
            false => self.random.below(ranks),
        };
        Kind::Fixed { rank }
    }

    pub fn fair(&mut self) -> Kind {
        let any = self.random.within(1, 1024);
        let few = [1, 1, 2, 3, 4, 5, 6, 7, 8, 9, 10, 12, 100, 1023, 1024, any];
        let weight = match self.random.percent(3) {
            true => self.random.one_of(&[0, 1025, 1024, u32::MAX]),
            false => self.random.one_of(&few),
        };
        Kind::Fair { weight }
    }

    pub fn kind(&mut self) -> Kind {
        match self.random.below(3) {
            0 => self.reservation(),
            1 => self.fixed(3),
            _ => self.fair(),
        }
    }

    /// Whether a task is awake and waits for no lock.
    pub fn is_free(task: &Task) -> bool {
        task.awake && task.awaits.is_none()
    }

    /// The locks that a task owns.
    pub fn owned(&self, place: u32) -> Vec<u32> {
        let owner = Some(place as usize);
        (0..PLACES as u32)
            .filter(|&lock| self.system.locks()[lock as usize].owner == owner)
            .collect()
    }

    /// The quota and the period of a reserved task.
    pub fn reserved(&self, place: u32) -> Option<(u32, u32)> {
        match self.system.task(place as usize)?.role {
            Role::Reserved { quota, period, .. } => Some((quota, period)),
            _ => None,
        }
    }

    /// Two reserved tasks, the first with a longer period and with a quota that
    /// is more than the second can spare of its period.
    pub fn rivals(&mut self) -> Option<(u32, u32)> {
        let mut all = Vec::new();
        let places = self.all(|_, task| task.awaits.is_none());
        for (&late, &other) in places
            .iter()
            .flat_map(|a| places.iter().map(move |b| (a, b)))
        {
            match (self.reserved(late), self.reserved(other)) {
                (Some((q, p)), Some((quota, period))) if p > period && q + quota > period => {
                    all.push((late, other));
                }
                _ => {}
            }
        }
        self.random.some_of(&all)
    }
}
