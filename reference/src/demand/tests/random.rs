//! Random sessions on banks of several capacities: right ones are kept, whatever the calls;
//! each of their data values matters.

use super::*;

struct Random(u64);

impl Random {
    fn below(&mut self, bound: u32) -> u32 {
        self.0 = self
            .0
            .wrapping_mul(6_364_136_223_846_793_005)
            .wrapping_add(1_442_695_040_888_963_407);
        (self.0 >> 33) as u32 % bound
    }

    fn word(&mut self) -> u32 {
        self.below(1 << 16) << 16 | self.below(1 << 16)
    }

    fn one_of<T: Copy>(&mut self, choices: &[T]) -> T {
        choices[self.below(choices.len() as u32) as usize]
    }

    /// A private transfer, mostly to the attached device 8, or the words of a CCC.
    fn command(&mut self) -> String {
        let length = self.below(10) << 8;
        let header = self.below(2) << 21;
        let address = self.one_of(&[0x10, 0x10, 0x11, 0x11, 0x12]);
        match self.below(8) {
            0 => format!("W 00d4 {:08x}\nW 00d4 00000007", 1 << 22 | length),
            1 => {
                let code = self.one_of(&[0x06, 0x90]);
                format!(
                    "W 00d4 {:08x}\nW 00d4 {code:08x}",
                    1 << 22 | length | address
                )
            }
            _ => format!("W 00d4 {:08x}", header | length | address),
        }
    }

    /// Two address words, of any parity, from a reset on.
    fn assignment(&mut self) -> String {
        let words = [self.word(), self.word()];
        format!(
            "{RESET}\n{RELEASE}\nW 00d4 00400000\nW 00d4 00000007\nS\nD 1 {:08x}\n\
             W 00dc {:08x}\nA\nW 00dc {:08x}\nA\nF 0",
            self.word(),
            words[0],
            words[1]
        )
    }

    /// A call, or several in a row.
    fn lines(&mut self) -> String {
        match self.below(31) {
            0..=2 => self.command(),
            3..=6 => format!("W 00dc {:08x}", self.word()),
            7 | 8 => "R 00d8".to_string(),
            9 | 10 => "R 00e0".to_string(),
            11 => format!("R {}", self.one_of(&["00e4", "00e8", "0100", "0088"])),
            12 => format!("R {}", self.one_of(&["00c0", "00c4", "00c8", "00cc"])),
            13..=15 => "S".to_string(),
            16..=18 => "T".to_string(),
            19..=21 => format!("X {:02x}", self.below(256)),
            22..=24 => format!("F {:x}", self.one_of(&[0, 0, 0, 0, 1, 4, 6, 8])),
            25 => format!("D {:08x} {:08x}", self.word(), self.word()),
            26 => "A".to_string(),
            27 => format!("I 08 {:02x}", self.below(256)),
            28 => format!("W 0100 {:08x}", self.one_of(&[0, 0, 0, 3, 5])),
            29 => "G".to_string(),
            _ => match self.below(20) {
                0 => format!("{RESET}\n{RELEASE}"),
                1 => format!("W 0180 {:08x}", 0x1304 | self.below(2) << 1),
                2 => format!("W 02c4 {:08x}", self.below(5) << 8 | 0x10 | self.below(2)),
                3 | 4 => self.assignment(),
                _ => ROOM.to_string(),
            },
        }
    }
}

/// Without bursts if the bank never gets to offload mode.
fn random_session(seed: u64, bursts: bool) -> Session {
    let mut random = Random(seed);
    let mut script = "B".to_string();
    for least in [2, 1, 1, 2, 1] {
        script += &format!(" {:x}", least + random.below(5));
    }
    script += " 0 0 0 0 0 0\nO 10\n";
    script += RELEASE;
    script += "\nW 0140 00000003\nW 0180 0000110e\nW 02c0 00000410\n";
    for _ in 0..3000 {
        script += &random.lines();
        script += "\n";
    }
    let lines = script.lines().map(String::from);
    let lines = lines.filter(|line| bursts || !line.starts_with("W 0100"));
    Session::run_in(Mode::Test, &lines.collect::<Vec<_>>())
}

/// How often each clause was judged.
fn cases(session: &Session) -> Vec<u64> {
    let mut output = Vec::new();
    let (script, answers) = (session.script(), session.answers());
    let findings = judge(script.as_bytes(), answers.as_bytes(), Mode::Test).unwrap();
    findings.print(&mut output).unwrap();
    let report = String::from_utf8(output).unwrap();
    let counts = report
        .lines()
        .filter_map(|line| line.strip_suffix(" cases"));
    counts
        .map(|line| line.rsplit(' ').next().unwrap().parse().unwrap())
        .collect()
}

#[test]
fn right_sessions_are_kept() {
    let mut total = [0; clause::ALL_CLAUSES.len()];
    let mut bursts = 0;
    for seed in 0..40 {
        let session = random_session(seed, true);
        assert_broken(&session, &[]);
        bursts += session.count("G", DONE);
        for (sum, count) in total.iter_mut().zip(cases(&session)) {
            *sum += count;
        }
    }
    assert!(bursts > 100);
    for (clause, count) in clause::ALL_CLAUSES.iter().zip(total) {
        assert!(count > 50, "{clause:?}: {count}");
    }
}

/// One bit of a value changed breaks the clause that judges it, at its line.
#[test]
fn each_data_value_matters() {
    let mut changed = [0; 3];
    for seed in 40..42 {
        let session = random_session(seed, false);
        let mut random = Random(seed);
        for row in 0..session.rows.len() {
            let (place, clause) = match session.rows[row].line.as_str() {
                "T" => (0, Clause::DataSent),
                "R 00e0" => (1, Clause::DataRead),
                "A" => (2, Clause::AddressesTaken),
                _ => continue,
            };
            let carried_out = [DONE, WRONG_PARITY]
                .into_iter()
                .find(|number| session.is(row, "", *number));
            let Some(number) = carried_out else {
                continue;
            };
            let mut session = session.clone();
            session.set(row, session.value(row) ^ 1 << random.below(32), number);
            session.follow_reads();
            assert_broken(&session, &[(clause, row)]);
            changed[place] += 1;
        }
    }
    assert!(changed.iter().all(|count| *count > 20), "{changed:?}");
}
