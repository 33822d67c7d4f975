// The same work in plain Rust: the lines of a plan's text are read in sequence, with the same rules for operations,
// and the lines of its one group by their words.

use std::hint::black_box;

#[derive(Clone, Copy)]
enum Function {
    Not,
    Two(u8),
}

#[derive(Clone, Copy)]
enum Operand {
    Register(u32),
    Number(u64),
}

#[derive(Clone, Copy)]
#[allow(dead_code)]
struct Operation {
    stage: u32,
    function: Function,
    left: Operand,
    right: Operand,
}

const FUNCTIONS: [&str; 22] = [
    "mul", "div", "rem", "add", "sub", "shl", "shr", "and", "xor", "or", "eq", "ne", "lt", "le",
    "gt", "ge", "both", "either", "max", "min", "sadd", "decay",
];

const FIELDS: [&str; 14] = [
    "switch", "qid", "uid", "srcip", "dstip", "srcport", "dstport", "proto", "pkt_len",
    "payload_len", "tcpseq", "tin", "tout", "qsize",
];

#[derive(Default)]
struct Plan {
    reads: Option<u16>,
    ops: Vec<Operation>,
    groups: usize,
    open: Option<Group>,
    prints: Vec<u64>,
}

#[derive(Default)]
struct Group {
    keys: Vec<(String, u32)>,
    args: usize,
    initial: Vec<u64>,
    body: Option<Vec<String>>,
}

fn number(token: &str) -> Option<u64> {
    let bytes = token.as_bytes();
    if bytes.is_empty() || (bytes[0] == b'0' && bytes.len() > 1) {
        return None;
    }
    let mut n: u64 = 0;
    for byte in bytes {
        if !byte.is_ascii_digit() {
            return None;
        }
        n = n.checked_mul(10)?.checked_add(u64::from(byte - b'0'))?;
    }
    Some(n)
}

fn operand(plan: &Plan, token: &str) -> Option<Operand> {
    if let Some(rest) = token.strip_prefix('r') {
        let n = number(rest)?;
        let known = if n < 14 {
            plan.reads? >> n & 1 == 1
        } else {
            n < 14 + plan.ops.len() as u64
        };
        return if known { Some(Operand::Register(n as u32)) } else { None };
    }
    Some(Operand::Number(number(token.strip_prefix('#')?)?))
}

fn stage_of(plan: &Plan, operand: Operand) -> u32 {
    match operand {
        Operand::Register(r) if r >= 14 => plan.ops[r as usize - 14].stage,
        _ => 0,
    }
}

fn op_line(plan: &mut Plan, words: &[&str]) -> Option<()> {
    if plan.groups > 0 || plan.open.is_some() || plan.ops.len() >= 32768 {
        return None;
    }
    let stage = number(words.get(1)?)?;
    let (function, left, right) = match *words {
        [_, _, "not", a] => (Function::Not, operand(plan, a)?, Operand::Number(0)),
        [_, _, f, a, b] => {
            let f = FUNCTIONS.iter().position(|name| *name == f)? as u8;
            (Function::Two(f), operand(plan, a)?, operand(plan, b)?)
        }
        _ => return None,
    };
    let allowed = match (function, right) {
        (Function::Two(1 | 2), Operand::Number(n)) => n != 0,
        (Function::Two(5 | 6 | 21), Operand::Number(n)) => n < 64,
        (Function::Two(1 | 2 | 5 | 6 | 21), _) => false,
        _ => true,
    };
    let last = plan.ops.last().map_or(0, |op| op.stage);
    let greatest = stage_of(plan, left).max(stage_of(plan, right));
    if !allowed || stage < 1 || stage > 64 || u64::from(last) > stage || stage != u64::from(greatest) + 1 {
        return None;
    }
    plan.ops.push(Operation {
        stage: stage as u32,
        function,
        left,
        right,
    });
    Some(())
}

fn line(plan: &mut Plan, text: &str, words: &mut Vec<&str>, at: usize) -> Option<()> {
    match words[0] {
        "marple-plan" if at == 0 && text == "marple-plan 1" => Some(()),
        "reads" if at == 1 => {
            let mut bits: u16 = 0;
            for word in &words[1..] {
                let field = FIELDS.iter().position(|name| name == word)?;
                if bits >> field != 0 {
                    return None;
                }
                bits |= 1 << field;
            }
            plan.reads = Some(bits);
            Some(())
        }
        "op" => op_line(plan, words),
        "group" if plan.open.is_none() => {
            operand(plan, words.get(2)?)?;
            plan.open = Some(Group::default());
            Some(())
        }
        "key" => {
            let value = operand(plan, words.get(2)?)?;
            let stage = stage_of(plan, value);
            plan.open.as_mut()?.keys.push((words[1].to_string(), stage));
            Some(())
        }
        "arg" => {
            operand(plan, words.get(1)?)?;
            plan.open.as_mut()?.args += 1;
            Some(())
        }
        "state" => {
            let n = number(words.get(2)?)?;
            plan.open.as_mut()?.initial.push(n);
            Some(())
        }
        "body" => {
            plan.open.as_mut()?.body = Some(words[1..].iter().map(|w| w.to_string()).collect());
            Some(())
        }
        "fold" => {
            black_box(plan.open.take()?);
            plan.groups += 1;
            Some(())
        }
        "print" => {
            let n = number(words.get(1)?)?;
            if n as usize >= plan.groups || plan.prints.contains(&n) {
                return None;
            }
            plan.prints.push(n);
            Some(())
        }
        _ => None,
    }
}

fn read_plan(text: &str) -> Option<Plan> {
    let mut plan = Plan::default();
    let mut words = Vec::new();
    let body = text.strip_suffix('\n')?;
    for (at, one) in body.split('\n').enumerate() {
        words.clear();
        words.extend(one.split(' '));
        line(&mut plan, one, &mut words, at)?;
    }
    if plan.prints.is_empty() { None } else { Some(plan) }
}

fn main() {
    let mut text = String::from("marple-plan 1\nreads srcip tin tout qsize\n");
    for number in 0..32768u32 {
        let front = ["op 1 add r3 #", "op 1 sub r12 #", "op 1 max r11 #", "op 1 gt r13 #"];
        text.push_str(front[number as usize % 4]);
        text.push_str(&number.to_string());
        text.push('\n');
    }
    text.push_str("group r r14\nkey srcip r3\narg r12\nstate c 0\nbody set s0 add s0 a0\nfold linear 0 3 1\nprint 0\n");
    let mut all = 0;
    for _ in 0..40 {
        all += black_box(read_plan(black_box(&text))).map_or(0, |plan| plan.ops.len());
    }
    println!("{all}");
}
