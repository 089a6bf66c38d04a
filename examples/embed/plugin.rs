// A plugin in Rust: what `plugin.c` does, over the same file, in groups of the frames that are there together.
//     plugin controller DB CONFIG < FRAMES > REPLIES        plugin node DB ID < FRAMES > REPLIES
mod store;
#[allow(dead_code)]
mod tufayon;

use std::io::{Read, Write, stdin, stdout};
use tufayon::*;

fn main() {
    let words: Vec<String> = std::env::args().collect();
    let name = if words[1] == "controller" { std::fs::read(&words[3]).unwrap() } else { words[3].clone().into_bytes() };
    let mut store = store::open(&words[2]);
    let (mut plugin, record) = (Plugin::EMPTY, store::load(&store));
    let (bytes, size, at, count) = (name.as_ptr(), name.len(), record.as_ptr(), record.len());
    let ending = unsafe { match (words[1].as_str(), count) {
        ("controller", 0) => tufayon_controller_new(bytes, size, &mut plugin),
        ("controller", _) => tufayon_controller_from_record(bytes, size, at, count, &mut plugin),
        (_, 0) => tufayon_node_new(bytes, size, &mut plugin),
        _ => tufayon_node_from_record(bytes, size, at, count, &mut plugin),
    } };
    assert!(ending == DONE || ending == RENEWED, "no record of this plugin: {ending}");
    if ending == RENEWED { store::clear(&mut store) }
    store::put_changes(&mut store, &mut plugin);
    store::commit(&mut store);
    let (mut have, mut at, mut more): (Vec<u8>, usize, _) = (vec![], 0, [0; 4096]);
    let (mut replies, mut reply, mut used, mut written) = (vec![], [0u8; REPLY_ROOM], 0, 0);
    loop {
        // Who attaches, stages or mounts something on a call ends the group before and behind it.
        let left = &have[at..];
        let ending = unsafe { tufayon_answer(&mut plugin, left.as_ptr(), left.len(), &mut used, reply.as_mut_ptr(), REPLY_ROOM, &mut written) };
        if ending == DONE {
            store::put_changes(&mut store, &mut plugin);
            replies.extend_from_slice(&reply[..written]);
            at += used;
            continue;
        }
        store::commit(&mut store); // if it is refused the program ends, and so nothing is sent
        stdout().write_all(&replies).and_then(|_| stdout().flush()).unwrap();
        replies.clear();
        have.drain(..std::mem::take(&mut at));
        assert!(ending == SHORT, "no frame, or no memory: {ending}");
        match stdin().read(&mut more).unwrap() { 0 => break, count => have.extend_from_slice(&more[..count]) }
    }
    store::close(store, plugin);
    assert!(have.is_empty(), "the input ends in a frame");
}
