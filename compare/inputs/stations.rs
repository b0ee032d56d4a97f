//! `ring` and `ready`: own, set and removed addresses 0 to 125, witnessed ones 0 to 255.
use crate::chunks::Chunks;
use crate::random::Random;

const HIGHEST: usize = 125;
const LONGEST_LINE: usize = 16_384;

/// For own address 7: passes that lead to each phase, to Verification with stations 2, 5 and 9.
const TO_PHASES: [&str; 4] = ["", " w:9:2", " w:9:2 w:2:5 w:5:9 w:9:2", " w:9:2 w:2:5 w:5:9 w:9:2 w:2:5 w:5:9 w:9:2"];

pub fn make(chunks: &mut Chunks, seed: u64, size: usize) {
    passes(chunks);
    small_worlds(chunks);
    set_and_removed(chunks);
    rotations(chunks, &mut Random::new(seed, "rotations"), size / 25);
    random_walks(chunks, &mut Random::new(seed, "walks"), size / 12);
    longest_walks(chunks, &mut Random::new(seed, "longest"));
}

/// In each phase every pass between station addresses, and some with addresses that are none.
fn passes(chunks: &mut Chunks) {
    let addresses: Vec<usize> = (0..=129).chain([200, 254, 255]).collect();
    for lead in TO_PHASES {
        for &sa in &addresses {
            for &da in &addresses {
                chunks.push("ring-pass", &format!("ring 7{lead} w:{sa}:{da}"));
                if sa % 8 < 3 && da % 8 < 3 {
                    chunks.push("ready", &format!("ready 7{lead} w:{sa}:{da}"));
                }
            }
        }
    }
}

/// Every walk of four calls on stations 0 to 2, and of three on the three highest.
fn small_worlds(chunks: &mut Chunks) {
    for (family, name, first, calls) in
        [("ring-small", "ring", 0, 4), ("ring-small", "ring", HIGHEST - 2, 3), ("ready", "ready", 0, 3)]
    {
        let ops = ops_of(first..first + 3);
        for own in first..first + 3 {
            for walk in 0..ops.len().pow(calls) {
                let mut command = format!("{name} {own}");
                let mut rest = walk;
                for _ in 0..calls {
                    command.push(' ');
                    command.push_str(&ops[rest % ops.len()]);
                    rest /= ops.len();
                }
                chunks.push(family, &command);
            }
        }
    }
}

fn ops_of(world: std::ops::Range<usize>) -> Vec<String> {
    let mut ops = vec!["c".to_string()];
    for address in world.clone() {
        ops.push(format!("s:{address}"));
        ops.push(format!("r:{address}"));
        ops.extend(world.clone().map(|da| format!("w:{address}:{da}")));
    }
    ops
}

/// Every own address with every station set as next, then removed; and removed from a filled list.
fn set_and_removed(chunks: &mut Chunks) {
    for own in 0..=HIGHEST {
        chunks.push("ring-set", &format!("ring {own}"));
        for address in 0..=HIGHEST {
            let beside = (address + 1) % (HIGHEST + 1);
            chunks.push("ring-set", &format!("ring {own} s:{address} s:{beside} r:{address} r:{beside}"));
            chunks
                .push("ring-set", &format!("ring {own} c w:{address}:{own} w:{beside}:{address} r:{own} s:{address}"));
        }
    }
}

/// A token that goes round among stations that come and go; now and then a pass is lost.
fn rotations(chunks: &mut Chunks, random: &mut Random, size: usize) {
    for _ in 0..size {
        let own = random.between(0, HIGHEST);
        let many = random.pick(&[1, 2, 3, 5, 10, 32]);
        let mut stations: Vec<usize> = (0..many).map(|_| random.between(0, HIGHEST)).collect();
        let mut command = format!("ring {own}");
        let mut holder = stations[0];
        for _ in 0..random.between(20, 160) {
            stations.sort();
            let next = stations.iter().copied().find(|&station| station > holder).unwrap_or(stations[0]);
            if !random.once_in(40) {
                command += &format!(" w:{holder}:{next}");
            }
            holder = next;
            match random.below(30) {
                0 => stations.push(random.between(0, HIGHEST)),
                1 if stations.len() > 1 => drop(stations.swap_remove(random.below(stations.len()))),
                2 => command += &format!(" {}", call(random, &stations)),
                _ => {}
            }
        }
        chunks.push("ring-rotation", &command);
    }
}

/// A call on one of these stations, or now and then on any.
fn call(random: &mut Random, stations: &[usize]) -> String {
    let address = if random.once_in(8) { random.between(0, HIGHEST) } else { random.pick(stations) };
    match random.below(8) {
        0 => "c".to_string(),
        1 => format!("s:{address}"),
        2 => format!("r:{address}"),
        3 if random.once_in(8) => format!("w:{}:{address}", random.below(256)),
        4 if random.once_in(8) => format!("w:{address}:{}", random.below(256)),
        _ => format!("w:{address}:{}", random.pick(stations)),
    }
}

fn walk(random: &mut Random, own: usize, stations: &[usize], calls: usize) -> String {
    let mut command = format!("ring {own}");
    for _ in 0..calls {
        command.push(' ');
        command += &call(random, stations);
    }
    command
}

fn random_walks(chunks: &mut Chunks, random: &mut Random, size: usize) {
    for _ in 0..size {
        let many = random.between(1, 12);
        let stations: Vec<usize> = (0..many).map(|_| random.between(0, HIGHEST)).collect();
        let own = if random.once_in(3) { random.between(0, HIGHEST) } else { random.pick(&stations) };
        let calls = random.between(5, 100);
        chunks.push("ring-walk", &walk(random, own, &stations, calls));
    }
}

/// Walks of about as many calls as a line of the bench can hold.
fn longest_walks(chunks: &mut Chunks, random: &mut Random) {
    for many in [1, 2, 5, 10, 40] {
        let stations: Vec<usize> = (0..many).map(|_| random.between(0, HIGHEST)).collect();
        let command = walk(random, stations[0], &stations, 1_600);
        assert!(command.len() <= LONGEST_LINE);
        chunks.push("ring-long", &command);
    }
}
