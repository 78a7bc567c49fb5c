//! A script of cycles with moves, of at most 4 MiB.

const MOST: usize = 4_194_304;

/// As many whole rounds as fit. In each as many references are made as there are cells, of which three quarters die.
/// What a cycle leaves moves: a part of it by loads along the chain, the rest by the worker. Then it dies, too.
pub fn print(version: u32, cells: u32) {
    let mut text = format!("refscript {version}\nconfig 1 1 1 {cells} 0\n");
    for round in 0.. {
        let lines = lines_of(round, cells);
        if text.len() + lines.len() > MOST {
            break;
        }
        text.push_str(&lines);
    }
    print!("{text}");
}

fn lines_of(round: u32, cells: u32) -> String {
    let live = cells / 4;
    let mut lines = String::from("m0 new s0 1\n");
    for place in 1..cells {
        lines.push_str("m0 weak s1 s0 - 1\n");
        if place % 4 == 0 {
            lines.push_str("m0 store s1 0 s0\nm0 copy s0 s1\n");
        }
    }
    lines.push_str("m0 drop s1\n");
    cycle(&mut lines, 2 * round, live, cells - live);
    lines.push_str("select\nm0 copy s2 s0\n");
    lines.push_str(&"m0 load s2 s2 0\n".repeat(live as usize / 4));
    lines.push_str(&"w0 move\n".repeat(live as usize));
    lines.push_str("endmove\nm0 drop s0\nm0 drop s2\n");
    cycle(&mut lines, 2 * round + 1, 0, live);
    lines
}

fn cycle(lines: &mut String, now: u32, live: u32, dead: u32) {
    lines.push_str(&format!("begin {now} normal\n"));
    lines.push_str(&"w0 scan\n".repeat(live as usize + 1));
    lines.push_str("endmark\nw0 clearnext\nendclear\n");
    lines.push_str(&"w0 sweep\n".repeat(dead as usize / 64 + 1));
    lines.push_str("endsweep\n");
}
