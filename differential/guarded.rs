// The Rust behind 01's refusals: each call is refused by 01's numbers before the Rust is asked.
// Goes behind a copy of the original sched.rs, its test module cut off.

const LIMIT_NOW: u64 = 4_000_000_000;
const LIMIT_SWITCHES: u64 = 40_000_000_000;

#[derive(Clone, Copy)]
enum Call {
    Spawn(Option<u32>, u32),
    Exit(u32),
    Join(u32, u32),
    Retired(u32),
    Yield(u32),
    Priority(u32, u32),
    Timing(u32, u32),
    Force(u32, Option<u32>),
    Tick,
    Close(u32),
}

enum Answer {
    Ok,
    Spawned(u32),
    Joined(JoinOutcome),
    Switched(Vec<Switch>),
}

#[derive(Clone, Copy)]
struct Capacities {
    threads: u64,
    events: u64,
    segments: u64,
}

struct Guarded {
    sched: Scheduler<()>,
    capacities: Capacities,
    closed: bool,
}

impl Guarded {
    // 1, 2, 3
    fn new(cfg: SchedConfig, cores: u32, capacities: Capacities, entry: u32) -> Result<Self, u32> {
        if !(1..=1_000_000).contains(&cfg.quantum) || cfg.switch_cost > 10_000 {
            return Err(1);
        }
        if cores > 8 {
            return Err(2);
        }
        let Capacities { threads, events, segments } = capacities;
        if !(1..=256).contains(&threads) || !(1..=512).contains(&events) || !(1..=4096).contains(&segments) {
            return Err(3);
        }
        Ok(Guarded { sched: Scheduler::new(cfg, cores as usize, entry), capacities, closed: false })
    }

    fn open(&self) -> Result<(), u32> {
        if self.closed { Err(11) } else { Ok(()) }
    }

    // 4, 11
    fn exists(&self, core: u32) -> Result<usize, u32> {
        if core as usize >= self.sched.cores.len() {
            return Err(4);
        }
        self.open()?;
        Ok(core as usize)
    }

    fn leaving(&self, core: usize) -> bool {
        self.sched.flags[core].exit || self.sched.flags[core].block
    }

    // 4, 11, 12, 13: `running` where a switching core is 13 too
    fn held(&self, core: u32, running: bool) -> Result<usize, u32> {
        let core = self.exists(core)?;
        if self.leaving(core) {
            return Err(12);
        }
        match self.sched.cores[core] {
            CoreState::Running { .. } => Ok(core),
            CoreState::Switching { .. } if !running => Ok(core),
            _ => Err(13),
        }
    }

    fn in_time(&self) -> Result<(), u32> {
        if self.sched.now >= LIMIT_NOW { Err(18) } else { Ok(()) }
    }

    fn call(&mut self, call: Call) -> Result<Answer, u32> {
        match call {
            Call::Spawn(parent, entry) => {
                self.open()?;
                if self.sched.threads.len() as u64 >= self.capacities.threads {
                    return Err(17);
                }
                Ok(Answer::Spawned(self.sched.spawn(parent, entry, ())))
            }
            Call::Exit(core) => {
                let core = self.held(core, false)?;
                self.sched.exit(core);
                Ok(Answer::Ok)
            }
            Call::Join(core, target) => {
                let core = self.held(core, true)?;
                Ok(Answer::Joined(self.sched.join(core, target)))
            }
            Call::Retired(core) => {
                let core = self.exists(core)?;
                self.sched.retired(core);
                Ok(Answer::Ok)
            }
            Call::Yield(core) => {
                let core = self.held(core, true)?;
                let t = self.sched.running_on(core).unwrap();
                if self.sched.threads[t as usize].stats.yields >= LIMIT_NOW {
                    return Err(19);
                }
                self.sched.yield_now(core);
                Ok(Answer::Ok)
            }
            Call::Priority(tid, number) => {
                if tid as usize >= self.sched.threads.len() {
                    return Err(5);
                }
                self.open()?;
                self.sched.set_priority(tid, number);
                Ok(Answer::Ok)
            }
            Call::Timing(quantum, cost) => {
                if quantum > 1_000_000 || cost > 10_000 {
                    return Err(1);
                }
                self.open()?;
                self.sched.set_timing(quantum, cost);
                Ok(Answer::Ok)
            }
            Call::Force(core, named) => self.force(core, named),
            Call::Tick => {
                self.open()?;
                self.in_time()?;
                Ok(Answer::Switched(self.sched.end_tick()))
            }
            Call::Close(core) => {
                let core = self.held(core, false)?;
                self.in_time()?;
                self.sched.close(core);
                self.closed = true;
                Ok(Answer::Ok)
            }
        }
    }

    fn force(&mut self, core: u32, named: Option<u32>) -> Result<Answer, u32> {
        let core = self.exists(core)?;
        if (0..self.sched.cores.len()).any(|c| self.leaving(c)) {
            return Err(12);
        }
        if matches!(self.sched.cores[core], CoreState::Switching { .. }) {
            return Err(14);
        }
        match named {
            Some(t) if !self.sched.ready.contains(&t) => return Err(15),
            None if self.sched.ready.is_empty() => return Err(16),
            _ => {}
        }
        if self.sched.context_switches >= LIMIT_SWITCHES {
            return Err(19);
        }
        Ok(Answer::Switched(self.sched.force_switch(core, named).unwrap()))
    }
}
