// The plain double loop: `plain TESTS ENTRIES SPAN WANT ROUNDS` makes the tests of bench ranking and asks each test that
// isn't taken for its gain, for each row. It prints what bench ranking does.

struct Plan {
    tests: u16,
    entries: u16,
    span: u16,
    want: u32,
    rounds: u32,
}

fn after(number: u64) -> u64 {
    number.wrapping_mul(6_364_136_223_846_793_005).wrapping_add(1_442_695_040_888_963_407)
}

fn tests_of(plan: &Plan) -> Vec<Vec<(u32, u64)>> {
    let mut number = 1u64;
    let mut tests = Vec::new();
    for _ in 0..plan.tests {
        let mut rows = Vec::new();
        for entry in 0..plan.entries {
            number = after(number);
            let offset = (number >> 33) % u64::from(plan.span.max(1));
            rows.push((u32::from(entry) * u32::from(plan.span) + offset as u32, 1 + (number >> 62)));
        }
        tests.push(rows);
    }
    tests
}

fn rank(tests: &[Vec<(u32, u64)>], bins: usize, want: u32) -> Vec<(u32, u64)> {
    let mut missing = vec![u64::from(want); bins];
    let mut taken = vec![false; tests.len()];
    let mut ranked = Vec::new();
    loop {
        let mut best = (0u32, 0u64);
        for (place, rows) in tests.iter().enumerate() {
            if taken[place] {
                continue;
            }
            let gain: u64 = rows.iter().map(|(bin, count)| missing[*bin as usize].min(*count)).sum();
            if gain > best.1 {
                best = (place as u32, gain);
            }
        }
        if best.1 == 0 {
            return ranked;
        }
        ranked.push(best);
        taken[best.0 as usize] = true;
        for (bin, count) in &tests[best.0 as usize] {
            missing[*bin as usize] = missing[*bin as usize].saturating_sub(*count);
        }
    }
}

fn main() {
    let words: Vec<u64> = std::env::args().skip(1).map(|word| word.parse().unwrap()).collect();
    let plan = Plan {
        tests: words[0] as u16,
        entries: words[1] as u16,
        span: words[2] as u16,
        want: words[3] as u32,
        rounds: words[4] as u32,
    };
    let tests = tests_of(&plan);
    let bins = usize::from(plan.entries) * usize::from(plan.span);
    let mut found = (0, 0u64);
    for _ in 0..plan.rounds {
        let ranked = rank(&tests, bins, plan.want);
        let sum = ranked.iter().fold(0u64, |sum, row| after(sum ^ (u64::from(row.0) << 32 ^ row.1)));
        found = (ranked.len(), sum);
    }
    println!("{} {}", found.0, found.1);
}
