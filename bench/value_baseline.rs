//! What `value_bench` does, over the same tree of `Arc`s in Rust: `value_baseline build N`, `list N`, `int N`.

use std::env;
use std::hint::black_box;
use std::sync::Arc;

const MAX_DEPTH: u32 = 4096;
const CELLS: u32 = 4000;

#[derive(Clone)]
#[allow(dead_code)]
struct Value {
    depth: u32,
    node: Node,
}

#[derive(Clone)]
#[allow(dead_code)]
enum Node {
    Int(i64),
    Char(char),
    Truth(bool),
    Nil,
    Cell(Arc<(Value, Value)>),
    Pair(Arc<(Value, Value)>),
    Built(u32, Arc<Vec<Value>>),
}

fn leaf(node: Node) -> Value {
    Value { depth: 1, node }
}

fn cell(head: Value, tail: Value) -> Option<Value> {
    let below = head.depth.max(tail.depth);
    (below < MAX_DEPTH).then(|| Value {
        depth: below + 1,
        node: Node::Cell(Arc::new((head, tail))),
    })
}

fn list() -> Value {
    let mut list = leaf(Node::Nil);
    for n in 0..CELLS {
        list = cell(leaf(Node::Int(i64::from(n))), list).expect("not too deep");
    }
    list
}

#[inline(never)]
fn put_copy(place: &mut Value, value: &Value) {
    *place = value.clone();
}

fn copy(value: &Value, times: u64) {
    let mut place = leaf(Node::Nil);
    for _ in 0..times {
        put_copy(black_box(&mut place), value);
    }
}

fn main() {
    let words: Vec<String> = env::args().collect();
    let times: u64 = words[2].parse().expect("a number");
    match words[1].as_str() {
        "list" => copy(&list(), times),
        "int" => copy(&leaf(Node::Int(1)), times),
        "build" => {
            for _ in 0..times {
                black_box(list());
            }
        }
        _ => panic!("list, int or build"),
    }
}
