// What syntect answers, one record a line.
//   names FILE      a scope name on each line: its length, its eight fields and its name written back, or `refused`
//   prefixes FILE   two scope names with a tab between on each line: whether the first is a prefix of the second
//   told FILE       a starting stack, a tab, and changes with `;` between on each line: what a hook is told, each telling
//                   `push NAME STACK` or `pop STACK` with the stack then standing, `;` behind each
//   scores FILE     a path and a stack with a tab between on each line: the bits of the match power, or `none`
use syntect::parsing::{BasicScopeStackOp, ClearAmount, Scope, ScopeStack, ScopeStackOp};

fn scope(name: &str) -> Scope {
    Scope::new(name).expect("a name")
}

// A change as a pane script has it: POSITION OPERATION, the position passed over.
fn operation(change: &str) -> ScopeStackOp {
    let words: Vec<&str> = change.split(' ').collect();
    match words[1..] {
        ["push", name] => ScopeStackOp::Push(scope(name)),
        ["pop", count] => ScopeStackOp::Pop(count.parse().expect("a count")),
        ["clear", "all"] => ScopeStackOp::Clear(ClearAmount::All),
        ["clear", count] => ScopeStackOp::Clear(ClearAmount::TopN(count.parse().expect("a count"))),
        ["restore"] => ScopeStackOp::Restore,
        ["noop"] => ScopeStackOp::Noop,
        _ => panic!("no change: {change}"),
    }
}

fn stack_of(names: &str) -> ScopeStack {
    ScopeStack::from_vec(names.split_whitespace().map(scope).collect())
}

fn told(start: &str, changes: &str) -> String {
    let mut stack = stack_of(start);
    let mut out = String::new();
    for change in changes.split(';') {
        let answer = stack.apply_with_hook(&operation(change), |what, now| {
            match what {
                BasicScopeStackOp::Push(s) => out += &format!("push {}", s.build_string()),
                BasicScopeStackOp::Pop => out += "pop",
            }
            for s in now {
                out += &format!(" {}", s.build_string());
            }
            out += ";";
        });
        answer.expect("no refusal");
    }
    out
}

fn main() {
    let words: Vec<String> = std::env::args().collect();
    let text = std::fs::read_to_string(&words[2]).expect("a text file");
    for line in text.lines() {
        match words[1].as_str() {
            "names" => match Scope::new(line) {
                Ok(s) => {
                    let fields: Vec<String> = (0..8).map(|i| s.atom_at(i).to_string()).collect();
                    println!("{}\t{}\t{}", s.len(), fields.join(" "), s.build_string());
                }
                Err(_) => println!("refused"),
            },
            "prefixes" => {
                let (p, s) = line.split_once('\t').expect("a tab");
                let p = Scope::new(p).expect("a name");
                println!("{}", p.is_prefix_of(Scope::new(s).expect("a name")));
            }
            "told" => {
                let (start, changes) = line.split_once('\t').expect("a tab");
                println!("{}", told(start, changes));
            }
            "scores" => {
                let (path, stack) = line.split_once('\t').expect("a tab");
                match stack_of(path).does_match(stack_of(stack).as_slice()) {
                    Some(power) => println!("{:016x}", power.0.to_bits()),
                    None => println!("none"),
                }
            }
            other => panic!("no mode {other}"),
        }
    }
}
