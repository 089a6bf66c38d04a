// An orchestrator in Rust: what `orchestrator.c` does, over the same file, asked by the same lines, in groups of those that are there together.
//     orchestrator DB CONFIG < REQUESTS > ANSWERS
mod store;
#[allow(dead_code)]
mod tufayon;

use std::io::{BufRead, BufReader, Write, stdin, stdout};
use tufayon::*;

// The frame that is to be sent, and a refusal's number.
struct Told {
    frame: [u8; FRAME_ROOM],
    written: usize,
    fault: u32,
}

fn hex(digits: &str) -> Vec<u8> {
    digits.as_bytes().chunks(2).map(|two| u8::from_str_radix(std::str::from_utf8(two).unwrap(), 16).unwrap()).collect()
}

// Asks what the words say, and how that ends.
fn ask(of: &mut Plugin, words: &[&str], told: &mut Told) -> u32 {
    let (frame, written, fault) = (told.frame.as_mut_ptr(), &mut told.written, &mut told.fault);
    let (name, size, mut used) = (words[1].as_ptr(), words[1].len(), 0);
    unsafe {
        match (words[0], words) {
            ("create", [_, _, required, limit, rest @ ..]) => {
                let given = hex(rest.first().unwrap_or(&""));
                let (required, limit) = (required.parse().unwrap(), limit.parse().unwrap());
                tufayon_create(of, name, size, required, limit, given.as_ptr(), given.len(), frame, FRAME_ROOM, written, fault)
            }
            ("use", [_, _, node, target, capability, flag]) => {
                let given = hex(capability);
                tufayon_use(of, name, size, node.as_ptr(), node.len(), target.as_ptr(), target.len(), given.as_ptr(), given.len(), *flag == "ro", frame,
                    FRAME_ROOM, written, fault)
            }
            ("stop", [_, _, node, target]) => {
                tufayon_stop(of, name, size, node.as_ptr(), node.len(), target.as_ptr(), target.len(), frame, FRAME_ROOM, written, fault)
            }
            ("delete", _) => tufayon_delete(of, name, size, frame, FRAME_ROOM, written, fault),
            ("lose", _) => {
                *written = 0;
                tufayon_orchestrator_lose(of, name, size, fault)
            }
            ("timeout", _) => tufayon_timeout(of, name, size, frame, FRAME_ROOM, written, fault),
            ("reply", _) => {
                let came = hex(words[1]);
                tufayon_deliver(of, came.as_ptr(), came.len(), &mut used, frame, FRAME_ROOM, written, fault)
            }
            _ => panic!("no request"),
        }
    }
}

fn answer(ending: u32, asked: &str, told: &Told) -> String {
    let mut line = match ending {
        DONE => match asked { "reply" => "taken", "lose" => "lost", _ => "sent" }.to_string(),
        MET => "met".to_string(),
        IGNORED => "ignored".to_string(),
        REFUSED => format!("refused {}", told.fault),
        ending => panic!("no request, or no memory: {ending}"),
    };
    if ending == DONE && told.written > 0 {
        line.push(' ');
        told.frame[..told.written].iter().for_each(|byte| line.push_str(&format!("{byte:02x}")));
    }
    line
}

// The names of which something is wanted: when it begins, their timeouts are due.
fn wanted(of: &mut Plugin) -> String {
    let (mut line, mut name, mut goal, mut size, mut written) = ("wanted".to_string(), [0; NAME_ROOM], [0; GOAL_ROOM], 0, 0);
    let mut place = 0;
    while unsafe { tufayon_volume(of, place, name.as_mut_ptr(), NAME_ROOM, &mut size) } == DONE {
        assert!(unsafe { tufayon_goal(of, name.as_ptr(), size, goal.as_mut_ptr(), GOAL_ROOM, &mut written) } == DONE, "memory");
        if goal[0] != 0 { line.push_str(&format!(" {}", String::from_utf8_lossy(&name[..size]))) }
        place += 1;
    }
    line
}

fn tell(lines: &str) {
    stdout().write_all(lines.as_bytes()).and_then(|_| stdout().flush()).unwrap();
}

fn main() {
    let words: Vec<String> = std::env::args().collect();
    let config = std::fs::read(&words[2]).unwrap();
    let mut store = store::open(&words[1]);
    let (mut held, record) = (Plugin::EMPTY, store::load(&store));
    let (bytes, size, at, count) = (config.as_ptr(), config.len(), record.as_ptr(), record.len());
    let ending = unsafe {
        if count == 0 { tufayon_orchestrator_new(bytes, size, &mut held) } else { tufayon_orchestrator_from_record(bytes, size, at, count, &mut held) }
    };
    assert!(ending != NODE_IN_USE, "a volume may be attached at a node that CONFIG leaves out");
    assert!(ending == DONE, "no record of an orchestrator, or no session is left: {ending}");
    store::put_changes(&mut store, &mut held); // its session, before any frame is sent
    store::commit(&mut store);
    tell(&format!("{}\n", wanted(&mut held)));
    let mut told = Told { frame: [0; FRAME_ROOM], written: 0, fault: 0 };
    let (mut input, mut line, mut answers) = (BufReader::new(stdin()), String::new(), String::new());
    while input.read_line(&mut line).unwrap() > 0 {
        let asked: Vec<&str> = line.trim_end_matches('\n').split(' ').collect();
        let ending = ask(&mut held, &asked, &mut told);
        if ending != REFUSED { store::put_changes(&mut store, &mut held) }
        answers += &format!("{}\n", answer(ending, asked[0], &told));
        if !input.buffer().contains(&b'\n') {
            store::commit(&mut store); // if it is refused the program ends, and so nothing is written
            tell(&answers);
            answers.clear();
        }
        line.clear();
    }
    store::close(store, held);
}
