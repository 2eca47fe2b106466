// Appended to a copy of the original sched.rs, its test module cut off: the loads of crates/loads on the Rust itself.
// Standard input holds the same seven numbers, and the same figures are printed.
use std::io::Read as _;

fn replay(cfg: SchedConfig, cores: usize, threads: u32, ticks: u32) -> Scheduler<()> {
    let mut s: Scheduler<()> = Scheduler::new(cfg, cores, 0);
    for _ in 1..threads {
        s.spawn(Some(0), 0, ());
    }
    for _ in 0..ticks {
        for core in 0..cores {
            s.retired(core);
        }
        std::hint::black_box(s.end_tick());
    }
    s
}

fn main() {
    let mut text = String::new();
    std::io::stdin().read_to_string(&mut text).unwrap();
    let n: Vec<u32> = text.lines().map(|l| l.parse().unwrap()).collect();
    let cfg = SchedConfig {
        policy: SchedPolicy::ALL[n[0] as usize],
        quantum: n[1],
        switch_cost: n[2],
    };
    let mut last = replay(cfg, n[3] as usize, n[4], n[5]);
    for _ in 1..n[6] {
        last = replay(std::hint::black_box(cfg), n[3] as usize, n[4], n[5]);
    }
    let stats: Vec<ThreadStats> = last.threads().iter().map(|t| t.stats).collect();
    println!("refused=0");
    println!("context_switches={}", last.context_switches());
    println!("now={}", last.now());
    println!("ready_ticks={}", stats.iter().map(|s| s.ready_ticks).sum::<u64>());
    println!("run_ticks={}", stats.iter().map(|s| s.run_ticks).sum::<u64>());
    println!("preemptions={}", stats.iter().map(|s| s.preemptions).sum::<u64>());
}
