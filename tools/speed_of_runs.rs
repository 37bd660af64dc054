// What `speed_of_runs.py` compares the simulator with: plain Rust without proofs.
//
//     speed_of_runs lines N          writes the lines of N steps of the plant with two classes, one write for each
//     speed_of_runs cell SCRIPT      runs a script over the feed cell: an interpreter of its choices, which are listed here by hand
use std::collections::HashMap;
use std::fs::File;
use std::io::Write;
use std::os::fd::FromRawFd;

enum Expr {
    At(usize, usize),
    Input(usize),
    Value(usize),
    Int(i64),
    Not(Box<Expr>),
    And(Vec<Expr>),
    Or(Vec<Expr>),
    Eq(Box<Expr>, Box<Expr>),
    Sum(Box<Expr>, Box<Expr>),
    Mod(Box<Expr>, Box<Expr>),
}
use Expr::*;

#[derive(Clone)]
struct State {
    places: Vec<usize>,
    values: Vec<i64>,
    inputs: Vec<i64>,
}

fn value(expr: &Expr, state: &State) -> i64 {
    match expr {
        At(automaton, place) => (state.places[*automaton] == *place) as i64,
        Input(number) => state.inputs[*number],
        Value(number) => state.values[*number],
        Int(value) => *value,
        Not(one) => 1 - value(one, state),
        And(all) => all.iter().all(|it| value(it, state) == 1) as i64,
        Or(all) => all.iter().any(|it| value(it, state) == 1) as i64,
        Eq(one, other) => (value(one, state) == value(other, state)) as i64,
        Sum(one, other) => value(one, state) + value(other, state),
        Mod(one, other) => value(one, state) % value(other, state),
    }
}

struct Choice {
    tests: Vec<Expr>,
    moves: Vec<(usize, usize)>,
    writes: Vec<(usize, Expr)>,
}

struct Net {
    automata: Vec<(&'static str, [&'static str; 2])>,
    variables: Vec<(&'static str, i64, i64)>,
    inputs: Vec<&'static str>,
    events: Vec<(&'static str, Vec<Choice>)>,
    invariants: Vec<Expr>,
}

fn not(one: Expr) -> Expr {
    Not(Box::new(one))
}

fn choice(tests: Vec<Expr>, moves: Vec<(usize, usize)>) -> Choice {
    Choice { tests, moves, writes: vec![] }
}

// The cell of examples/cell.cif: sensors, actuators, and an automaton that monitors.
fn cell() -> Net {
    let full = || Eq(Box::new(Value(0)), Box::new(Int(3)));
    let next = Mod(Box::new(Sum(Box::new(Value(0)), Box::new(Int(1)))), Box::new(Int(4)));
    let counts = Choice { tests: vec![At(2, 0), Input(2), At(5, 1)], moves: vec![(2, 1)], writes: vec![(0, next)] };
    Net {
        automata: vec![("start", ["Off", "On"]), ("stop", ["Off", "On"]), ("part", ["Off", "On"]), ("motor", ["Off", "On"]), ("lamp", ["Off", "On"]), ("Run", ["Idle", "Busy"])],
        variables: vec![("Run.count", 0, 3)],
        inputs: vec!["i_start", "i_stop", "i_part"],
        events: vec![
            ("start.u_on", vec![choice(vec![At(0, 0), Input(0), At(5, 0), not(At(1, 1))], vec![(0, 1), (5, 1)]),
                                choice(vec![At(0, 0), Input(0), not(And(vec![At(5, 0), not(At(1, 1))]))], vec![(0, 1)])]),
            ("start.u_off", vec![choice(vec![At(0, 1), not(Input(0))], vec![(0, 0)])]),
            ("stop.u_on", vec![choice(vec![At(1, 0), Input(1), At(5, 1)], vec![(1, 1), (5, 0)]), choice(vec![At(1, 0), Input(1), not(At(5, 1))], vec![(1, 1)])]),
            ("stop.u_off", vec![choice(vec![At(1, 1), not(Input(1))], vec![(1, 0)])]),
            ("part.u_on", vec![counts, choice(vec![At(2, 0), Input(2), not(At(5, 1))], vec![(2, 1)])]),
            ("part.u_off", vec![choice(vec![At(2, 1), not(Input(2))], vec![(2, 0)])]),
            ("motor.c_on", vec![choice(vec![At(3, 0), And(vec![At(5, 1), not(At(2, 1))])], vec![(3, 1)])]),
            ("motor.c_off", vec![choice(vec![At(3, 1), Or(vec![At(5, 0), At(2, 1)])], vec![(3, 0)])]),
            ("lamp.c_on", vec![choice(vec![At(4, 0), full()], vec![(4, 1)])]),
            ("lamp.c_off", vec![choice(vec![At(4, 1), not(full())], vec![(4, 0)])]),
        ],
        invariants: vec![not(And(vec![At(4, 1), At(3, 1)]))],
    }
}

fn after(net: &Net, choice: &Choice, state: &State) -> Option<State> {
    if !choice.tests.iter().all(|it| value(it, state) == 1) {
        return None;
    }
    let mut next = state.clone();
    for (automaton, place) in &choice.moves {
        next.places[*automaton] = *place;
    }
    for (variable, expr) in &choice.writes {
        let found = value(expr, state);
        if found < net.variables[*variable].1 || found > net.variables[*variable].2 {
            return None;
        }
        next.values[*variable] = found;
    }
    net.invariants.iter().all(|it| value(it, &next) == 1).then_some(next)
}

fn put(line: &mut Vec<u8>, net: &Net, state: &State, before: Option<&State>) {
    for (number, (path, places)) in net.automata.iter().enumerate() {
        if before.map_or(true, |it| it.places[number] != state.places[number]) {
            write!(line, " {}={}", path, places[state.places[number]]).unwrap();
        }
    }
    for (number, (path, _, _)) in net.variables.iter().enumerate() {
        if before.map_or(true, |it| it.values[number] != state.values[number]) {
            write!(line, " {}={}", path, state.values[number]).unwrap();
        }
    }
    line.push(b'\n');
}

fn run_cell(script: &str, out: &mut File) {
    let net = cell();
    let events: HashMap<&str, usize> = net.events.iter().enumerate().map(|(number, it)| (it.0, number)).collect();
    let inputs: HashMap<&str, usize> = net.inputs.iter().enumerate().map(|(number, it)| (*it, number)).collect();
    let mut state = State { places: vec![0; 6], values: vec![0], inputs: vec![0; 3] };
    let (mut line, mut steps) = (b"start".to_vec(), 0);
    put(&mut line, &net, &state, None);
    out.write_all(&line).unwrap();
    for (number, words) in script.lines().enumerate() {
        line.clear();
        let mut parts = words.split(' ');
        match (parts.next(), parts.next(), parts.next(), parts.next()) {
            (Some(""), None, None, None) => continue,
            (Some("set"), Some(name), Some(word), None) => {
                state.inputs[inputs[name]] = (word == "true") as i64;
                write!(line, "set {name}={word}\n").unwrap();
            }
            (Some("fire"), Some(name), None, None) => {
                let Some(next) = net.events[events[name]].1.iter().find_map(|it| after(&net, it, &state)) else {
                    panic!("line {}", number + 1);
                };
                steps += 1;
                write!(line, "step {steps} {name}").unwrap();
                put(&mut line, &net, &next, Some(&state));
                state = next;
            }
            _ => panic!("line {}", number + 1),
        }
        out.write_all(&line).unwrap();
    }
}

fn write_lines(count: u32, out: &mut File) {
    let mut line = Vec::new();
    out.write_all(b"start A=x\n").unwrap();
    for step in 1..=count {
        line.clear();
        let shown = if step % 2 == 1 { "A.u A=y" } else { "A.c A=x" };
        write!(line, "step {step} {shown}\n").unwrap();
        out.write_all(&line).unwrap();
    }
}

fn main() {
    let words: Vec<String> = std::env::args().collect();
    // (standard output without a buffer)
    let mut out = unsafe { File::from_raw_fd(1) };
    match words[1].as_str() {
        "lines" => write_lines(words[2].parse().unwrap(), &mut out),
        _ => run_cell(&std::fs::read_to_string(&words[2]).unwrap(), &mut out),
    }
}
