//! A peer for `./bench calls`, in stock Rust: the same mix of calls in a tree under hand-over-hand locks, each descent
//! of which takes the journal's lock too, and in a plain tree under one lock. Nothing of it is proved.
//!
//!     peer (coupled|mutex) THREADS DEPTH LAYERS CALLS (own|one)
//!
//! It prints calls a second.

use std::collections::{BTreeMap, HashMap};
use std::sync::{Arc, Mutex};
use std::time::Instant;

/// Rights a layer grants on a node, by inode; beneath it too.
type Layer = HashMap<u64, u32>;

const STAT_NEEDS: u32 = 0;
const READ: u32 = 1;
const MAKE: u32 = 2;
const REMOVE: u32 = 4;
const REFER: u32 = 8;
const ALL: u32 = 15;

/// What the rights on a path come to, layer by layer.
#[derive(Clone)]
struct Granted(Vec<u32>);

impl Granted {
    fn new(layers: &[Layer]) -> Granted {
        Granted(vec![0; layers.len()])
    }

    fn passes(&mut self, layers: &[Layer], inode: u64) {
        for (granted, layer) in self.0.iter_mut().zip(layers) {
            *granted |= layer.get(&inode).copied().unwrap_or(0);
        }
    }

    fn allows(&self, rights: u32) -> bool {
        self.0.iter().all(|granted| granted & rights == rights)
    }
}

enum Content {
    Dir(BTreeMap<String, Link>),
    File,
}

/// A node under a lock of its own.
struct Locked {
    inode: u64,
    content: Mutex<Content>,
}

type Link = Arc<Locked>;

#[derive(Clone, Copy, PartialEq)]
enum Kind {
    Stat,
    Open,
    Close,
    Make,
    Unlink,
    Rename,
}

/// An entry of the history: who called what on which paths, and whether it did.
struct Entry {
    client: u64,
    kind: u8,
    path: String,
    is_done: bool,
}

/// What is decided under the journal's lock: the entries, the next inode, and what is looked at in each descent.
struct Journal {
    entries: Vec<Entry>,
    inodes: u64,
    looks: u64,
}

struct Client {
    number: u64,
    layers: Vec<Layer>,
    files: Vec<Option<Link>>,
}

trait Tree: Sync {
    fn make(&self, me: &mut Client, path: &str, is_dir: bool) -> bool;
    fn call(&self, me: &mut Client, kind: Kind, path: &str, into: &str) -> bool;
}

struct Coupled {
    root: Link,
    journal: Mutex<Journal>,
}

fn split(path: &str) -> (&str, &str) {
    let at = path.rfind('/').unwrap();
    (&path[..at], &path[at + 1..])
}

fn dir(inode: u64) -> Link {
    Arc::new(Locked { inode, content: Mutex::new(Content::Dir(BTreeMap::new())) })
}

impl Coupled {
    fn new() -> Coupled {
        let journal = Journal { entries: Vec::with_capacity(1_000_000), inodes: 1, looks: 0 };
        Coupled { root: dir(1), journal: Mutex::new(journal) }
    }

    /// Goes down hand over hand, each step under the journal's lock, and does the work with the last directory held.
    fn within<T>(
        &self,
        me: &Client,
        parent: &str,
        work: impl FnOnce(&mut BTreeMap<String, Link>, &mut Granted, &mut Journal) -> T,
    ) -> Option<T> {
        let mut granted = Granted::new(&me.layers);
        let mut node = self.root.clone();
        // The guard of a node borrows from it, and lives beside it until the next is held.
        let mut guard = unsafe { std::mem::transmute::<_, std::sync::MutexGuard<'static, Content>>(node.content.lock().unwrap()) };
        granted.passes(&me.layers, node.inode);
        for name in parent.split('/').filter(|name| !name.is_empty()) {
            let next = {
                let mut journal = self.journal.lock().unwrap();
                journal.looks += 1;
                match &*guard {
                    Content::Dir(names) => names.get(name)?.clone(),
                    Content::File => return None,
                }
            };
            let held = unsafe { std::mem::transmute::<_, std::sync::MutexGuard<'static, Content>>(next.content.lock().unwrap()) };
            granted.passes(&me.layers, next.inode);
            guard = held;
            node = next;
        }
        let mut journal = self.journal.lock().unwrap();
        let told = match &mut *guard {
            Content::Dir(names) => Some(work(names, &mut granted, &mut journal)),
            Content::File => None,
        };
        drop(journal);
        drop(guard);
        drop(node);
        told
    }
}

fn entered(journal: &mut Journal, client: u64, kind: Kind, path: &str, is_done: bool) -> bool {
    journal.entries.push(Entry { client, kind: kind as u8, path: path.to_string(), is_done });
    is_done
}

impl Tree for Coupled {
    fn make(&self, me: &mut Client, path: &str, is_dir: bool) -> bool {
        let (parent, name) = split(path);
        let number = me.number;
        self.within(me, parent, |names, granted, journal| {
            let is_done = !names.contains_key(name) && granted.allows(MAKE);
            if is_done {
                journal.inodes += 1;
                let content = if is_dir { Content::Dir(BTreeMap::new()) } else { Content::File };
                names.insert(name.to_string(), Arc::new(Locked { inode: journal.inodes, content: Mutex::new(content) }));
            }
            entered(journal, number, Kind::Make, path, is_done)
        })
        .unwrap_or(false)
    }

    fn call(&self, me: &mut Client, kind: Kind, path: &str, into: &str) -> bool {
        let (parent, name) = split(path);
        let (number, layers) = (me.number, me.layers.len());
        match kind {
            Kind::Close => {
                let is_done = me.files.pop().is_some();
                entered(&mut self.journal.lock().unwrap(), number, kind, path, is_done)
            }
            Kind::Make => self.make(me, path, false),
            Kind::Open => {
                let mut opened = None;
                let is_done = self
                    .within(me, parent, |names, granted, journal| {
                        let node = names.get(name).cloned();
                        if let Some(node) = &node {
                            granted.passes(&me.layers, node.inode);
                        }
                        let is_done = node.is_some() && granted.allows(READ);
                        opened = node.filter(|_| is_done);
                        entered(journal, number, kind, path, is_done)
                    })
                    .unwrap_or(false);
                me.files.extend(opened.map(Some));
                is_done
            }
            Kind::Stat => self
                .within(me, parent, |names, granted, journal| {
                    let is_done = match names.get(name) {
                        Some(node) => matches!(&*node.content.lock().unwrap(), Content::File | Content::Dir(_)),
                        None => false,
                    };
                    entered(journal, number, kind, path, is_done && granted.allows(STAT_NEEDS))
                })
                .unwrap_or(false),
            Kind::Unlink => self
                .within(me, parent, |names, granted, journal| {
                    let is_done = granted.allows(REMOVE) && names.remove(name).is_some();
                    entered(journal, number, kind, path, is_done)
                })
                .unwrap_or(false),
            // Both names are in one directory in this mix.
            Kind::Rename => self
                .within(me, parent, |names, granted, journal| {
                    let needs = if layers == 0 { 0 } else { REMOVE | MAKE | REFER };
                    let is_done = granted.allows(needs) && match names.remove(name) {
                        Some(node) => {
                            names.insert(split(into).1.to_string(), node);
                            true
                        }
                        None => false,
                    };
                    entered(journal, number, kind, path, is_done)
                })
                .unwrap_or(false),
        }
    }
}

/// One lock round a whole call in a tree whose nodes have none that is waited for.
struct OneMutex {
    tree: Mutex<Plain>,
}

enum Node {
    Dir(BTreeMap<String, usize>),
    File,
}

struct Plain {
    nodes: Vec<Option<Node>>,
    free: Vec<usize>,
    journal: Journal,
}

impl Plain {
    fn walk(&self, me: &Client, parent: &str, granted: &mut Granted) -> Option<usize> {
        let mut at = 0;
        granted.passes(&me.layers, 1);
        for name in parent.split('/').filter(|name| !name.is_empty()) {
            match self.nodes[at].as_ref()? {
                Node::Dir(names) => at = *names.get(name)?,
                Node::File => return None,
            }
            granted.passes(&me.layers, at as u64 + 1);
        }
        Some(at)
    }

    fn names(&mut self, at: usize) -> Option<&mut BTreeMap<String, usize>> {
        match self.nodes[at].as_mut()? {
            Node::Dir(names) => Some(names),
            Node::File => None,
        }
    }

    fn made(&mut self, at: usize, name: &str, node: Node) -> bool {
        let free = self.free.pop();
        let index = free.unwrap_or(self.nodes.len());
        match self.names(at) {
            Some(names) if !names.contains_key(name) => names.insert(name.to_string(), index),
            _ => return false,
        };
        match free {
            Some(index) => self.nodes[index] = Some(node),
            None => self.nodes.push(Some(node)),
        }
        true
    }

    fn done(&mut self, me: &mut Client, kind: Kind, path: &str, into: &str, is_dir: bool) -> Option<bool> {
        let (parent, name) = split(path);
        let mut granted = Granted::new(&me.layers);
        if kind == Kind::Close {
            return Some(me.files.pop().is_some());
        }
        let at = self.walk(me, parent, &mut granted)?;
        Some(match kind {
            Kind::Make => {
                let node = if is_dir { Node::Dir(BTreeMap::new()) } else { Node::File };
                granted.allows(MAKE) && self.made(at, name, node)
            }
            Kind::Stat => self.names(at)?.contains_key(name),
            Kind::Open => {
                let node = *self.names(at)?.get(name)?;
                granted.passes(&me.layers, node as u64 + 1);
                let is_done = granted.allows(READ);
                if is_done {
                    me.files.push(None);
                }
                is_done
            }
            Kind::Unlink => {
                if !granted.allows(REMOVE) {
                    return Some(false);
                }
                let node = self.names(at)?.remove(name)?;
                self.nodes[node] = None;
                self.free.push(node);
                true
            }
            Kind::Rename => {
                if !granted.allows(REMOVE | MAKE | REFER) {
                    return Some(false);
                }
                let names = self.names(at)?;
                let node = names.remove(name)?;
                names.insert(split(into).1.to_string(), node);
                true
            }
            Kind::Close => false,
        })
    }
}

impl OneMutex {
    fn new() -> OneMutex {
        let journal = Journal { entries: Vec::with_capacity(1_000_000), inodes: 1, looks: 0 };
        let nodes = vec![Some(Node::Dir(BTreeMap::new()))];
        OneMutex { tree: Mutex::new(Plain { nodes, free: Vec::new(), journal }) }
    }
}

impl Tree for OneMutex {
    fn make(&self, me: &mut Client, path: &str, is_dir: bool) -> bool {
        let mut tree = self.tree.lock().unwrap();
        let is_done = tree.done(me, Kind::Make, path, path, is_dir).unwrap_or(false);
        entered(&mut tree.journal, me.number, Kind::Make, path, is_done)
    }

    fn call(&self, me: &mut Client, kind: Kind, path: &str, into: &str) -> bool {
        let mut tree = self.tree.lock().unwrap();
        let is_done = tree.done(me, kind, path, into, false).unwrap_or(false);
        entered(&mut tree.journal, me.number, kind, path, is_done)
    }
}

/// Ten calls: five stats, and one each of make, open, close, rename and unlink.
fn turn(tree: &dyn Tree, me: &mut Client, kept: &str, new: &str, renamed: &str) -> u64 {
    let calls = [
        (Kind::Stat, kept),
        (Kind::Make, new),
        (Kind::Stat, new),
        (Kind::Open, new),
        (Kind::Stat, kept),
        (Kind::Close, new),
        (Kind::Rename, new),
        (Kind::Stat, renamed),
        (Kind::Unlink, renamed),
        (Kind::Stat, kept),
    ];
    calls.iter().filter(|(kind, path)| tree.call(me, *kind, path, renamed)).count() as u64
}

/// Makes the directories down to the depth, the last of them named by the text, and a file in it.
fn furnish(tree: &dyn Tree, me: &mut Client, depth: usize, text: &str) -> String {
    let mut path = String::new();
    for level in 1..depth {
        path += if level == 1 { text } else { "/d" };
        tree.make(me, &path, true);
    }
    assert!(tree.make(me, &format!("{path}/kept"), false));
    path
}

fn measure(tree: &dyn Tree, threads: u64, depth: usize, layers: usize, calls: u64, is_own: bool) -> f64 {
    let mut maker = Client { number: 0, layers: Vec::new(), files: Vec::new() };
    let places: Vec<String> = (0..if is_own { threads } else { 1 })
        .map(|thread| furnish(tree, &mut maker, depth, &format!("/t{thread}")))
        .collect();
    let began = Instant::now();
    std::thread::scope(|scope| {
        for thread in 0..threads {
            let place = &places[if is_own { thread as usize } else { 0 }];
            scope.spawn(move || {
                let layers = vec![Layer::from([(1, ALL)]); layers];
                let mut me = Client { number: thread + 1, layers, files: Vec::new() };
                let paths = ["kept".to_string(), format!("n{thread}"), format!("r{thread}")].map(|name| format!("{place}/{name}"));
                let done: u64 = (0..calls / 10).map(|_| turn(tree, &mut me, &paths[0], &paths[1], &paths[2])).sum();
                assert_eq!(done, calls / 10 * 10);
            });
        }
    });
    (threads * (calls / 10 * 10)) as f64 / began.elapsed().as_secs_f64()
}

fn main() {
    let words: Vec<String> = std::env::args().skip(1).collect();
    let [which, threads, depth, layers, calls, place] = &words[..] else {
        eprintln!("peer: wanted: (coupled|mutex) THREADS DEPTH LAYERS CALLS (own|one)");
        std::process::exit(64);
    };
    let number = |word: &String| word.parse::<u64>().expect("a number");
    let coupled = Coupled::new();
    let mutex = OneMutex::new();
    let tree: &dyn Tree = if which == "coupled" { &coupled } else { &mutex };
    let rate = measure(tree, number(threads), number(depth) as usize, number(layers) as usize, number(calls), place == "own");
    let entries = if which == "coupled" { coupled.journal.into_inner().unwrap() } else { mutex.tree.into_inner().unwrap().journal };
    let bytes: usize = entries.entries.iter().map(|it| it.path.len() + it.client as usize + it.kind as usize + it.is_done as usize).sum();
    assert!(bytes > 0);
    println!("{rate:.0}");
}
