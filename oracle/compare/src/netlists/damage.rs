//! Damages netlists: most results break one rule, some are still right. First the
//! parts (nodes and records taken away, doubled, exchanged, cut, widened), then
//! single words, then the slice's length.

use super::draft::{starts, Draft};
use super::places::{layout, Role};
use image::netlist::{HEADER_WORDS, NODE_WORDS};
use image::{Random, ABSENT};

/// A damaged copy of a right netlist.
pub fn damaged(random: &mut Random, draft: &Draft) -> Vec<u32> {
    let mut draft = draft.clone();
    let counts = draft.words()[5..10].to_vec();
    let mut words;
    match random.below(100) {
        0..30 => {
            damage_parts(random, &mut draft);
            words = draft.words();
            if random.chance(25) {
                words[5..10].copy_from_slice(&counts);
            }
        }
        _ => {
            words = draft.words();
            damage_words(random, &mut words);
        }
    }
    while random.chance(15) {
        damage_words(random, &mut words);
    }
    if random.chance(6) {
        cut(random, &mut words);
    }
    words
}

/// Words behind the list words used, which are not read.
pub fn extend(random: &mut Random, words: &mut Vec<u32>) {
    let junk = random.pick(&[1, 2, 5, 30]);
    words.extend((0..junk).map(|_| random.next() as u32));
}

/// A slice that ends too early.
pub fn cut(random: &mut Random, words: &mut Vec<u32>) {
    let list = words.get(4).map_or(0, |&word| word as usize);
    let length = match random.below(6) {
        0 => random.below(5),
        1 => random.below(HEADER_WORDS + 1),
        2 => list.saturating_sub(random.below(3)),
        3 => list + 1,
        4 => words.len().saturating_sub(1),
        _ => random.below(words.len() + 1),
    };
    words.truncate(length);
}

// ---- parts ----

fn damage_parts(random: &mut Random, draft: &mut Draft) {
    match random.below(17) {
        0 => drop(take_record(random, draft)),
        1 => double_record(random, draft),
        2 => exchange_records(random, draft),
        3 => cut_record(random, draft),
        4 => widen_record(random, draft, false),
        5 => widen_record(random, draft, true),
        6 => other_ports(random, draft),
        7 => other_port_width(random, draft),
        8 => exchange_nodes(random, draft),
        9 | 10 => copy_node(random, draft),
        11 => other_kind(random, draft),
        12 => drop(draft.nodes.pop()),
        13 => add_node(random, draft),
        14 => add_record(random, draft),
        15 => other_direction(random, draft),
        _ => exchange_listings(random, draft),
    }
    draft.n = draft.n.max(draft.nodes.len());
}

/// A record, each sort as likely as any other that is there.
fn some_record(random: &mut Random, draft: &Draft) -> Option<usize> {
    let sorts: Vec<u32> = (0..5).filter(|sort| draft.records.iter().any(|record| record.first() == Some(sort))).collect();
    let sort = (!sorts.is_empty()).then(|| random.pick(&sorts))?;
    let of_sort: Vec<usize> = (0..draft.records.len()).filter(|&at| draft.records[at].first() == Some(&sort)).collect();
    Some(random.pick(&of_sort))
}

fn take_record(random: &mut Random, draft: &mut Draft) -> Option<Vec<u32>> {
    some_record(random, draft).map(|at| draft.records.remove(at))
}

fn double_record(random: &mut Random, draft: &mut Draft) {
    if let Some(at) = some_record(random, draft) {
        let mut again = draft.records[at].clone();
        if random.chance(30) {
            let word = random.below(again.len());
            again[word] = other_value(random, again[word], draft.nodes.len() as u32);
        }
        draft.records.insert(random.below(draft.records.len() + 1), again);
    }
}

fn exchange_records(random: &mut Random, draft: &mut Draft) {
    if let (Some(one), Some(other)) = (some_record(random, draft), some_record(random, draft)) {
        draft.records.swap(one, other);
    }
}

/// Words less, so that the next record's are taken, or none are left.
fn cut_record(random: &mut Random, draft: &mut Draft) {
    if let Some(at) = some_record(random, draft) {
        let at = if random.flag() { draft.records.len() - 1 } else { at };
        let record = &mut draft.records[at];
        let length = if random.flag() { record.len() - 1 } else { random.below(record.len()) };
        record.truncate(length);
    }
}

/// A port or cell one bit wider, or wider than any may be; the words fit.
fn widen_record(random: &mut Random, draft: &mut Draft, beyond: bool) {
    let Some(at) = some_record(random, draft) else { return };
    let record = &mut draft.records[at];
    let (head, lists, tail) = match record[0] {
        0 => (3, 1, 0),
        3 => (4, 3, 0),
        4 => (3, 2, 1),
        _ => return,
    };
    let width = record[2] as usize;
    let wider = if beyond { random.pick(&[1_025, 1_026, 1_500]) } else { width + 1 };
    let mut words = record[..head].to_vec();
    words[2] = wider as u32;
    for list in record[head..record.len() - tail].chunks(width.max(1)).take(lists) {
        words.extend(list.iter().cycle().take(wider));
    }
    words.extend(&record[record.len() - tail..]);
    *record = words;
}

/// A memory with other ports than its nodes are for: none, three, one for two.
fn other_ports(random: &mut Random, draft: &mut Draft) {
    let Some(memory) = draft.records.iter_mut().find(|record| record[0] == 2) else { return };
    let Some(port) = port_words(memory, 6) else { return };
    match random.below(4) {
        0 => {
            memory.truncate(6);
            memory[5] = 0;
        }
        1 => {
            let port = memory[6..6 + port].to_vec();
            let ports = 1 + memory[5];
            memory.extend(port);
            memory[5] = ports;
        }
        2 => {
            let port = memory[6..6 + port].to_vec();
            memory.truncate(6);
            memory[5] = random.pick(&[3, 3, 4, 7]);
            (0..memory[5]).for_each(|_| memory.extend(&port));
        }
        _ => memory[5] = random.pick(&[0, 1, 2, 3, ABSENT]),
    }
}

/// The words of a memory's port that begins here.
fn port_words(memory: &[u32], first: usize) -> Option<usize> {
    let widths = memory.get(first..first + 4)?;
    let length = 10 + widths.iter().map(|&width| width as usize).sum::<usize>();
    (first + length <= memory.len()).then_some(length)
}

/// A width of a memory's port changed together with its list, so that it fits.
fn other_port_width(random: &mut Random, draft: &mut Draft) {
    let memories: Vec<usize> = (0..draft.records.len()).filter(|&at| draft.records[at][0] == 2).collect();
    if memories.is_empty() {
        return;
    }
    let memory = &mut draft.records[random.pick(&memories)];
    let mut first = 6;
    if random.flag() && memory[5] == 2 {
        first += port_words(memory, first).unwrap_or(0);
    }
    if port_words(memory, first).is_none() {
        return;
    }
    let list = random.below(4);
    let start = first + 4 + memory[first..first + list].iter().map(|&width| width as usize).sum::<usize>();
    let width = memory[first + list] as usize;
    let most = if list % 2 == 0 { 33 } else { 1_025 };
    let other = random.pick(&[0, width.saturating_sub(1), width + 1, most, most]);
    let words: Vec<u32> = memory[start..start + width].iter().copied().cycle().take(if width == 0 { 0 } else { other }).collect();
    memory[first + list] = other as u32;
    memory.splice(start..start + width, words);
}

/// A net, as likely near the ends as anywhere.
fn some_net(random: &mut Random, draft: &Draft) -> Option<usize> {
    (!draft.nodes.is_empty()).then(|| random.below(draft.nodes.len()))
}

/// A net of a kind that is there, each kind as likely as any other.
fn some_node(random: &mut Random, draft: &Draft) -> Option<usize> {
    let kinds: Vec<u32> = (0..12).filter(|kind| draft.nodes.iter().any(|node| node[0] == *kind)).collect();
    let kind = (!kinds.is_empty()).then(|| random.pick(&kinds))?;
    let of_kind: Vec<usize> = (0..draft.nodes.len()).filter(|&net| draft.nodes[net][0] == kind).collect();
    Some(random.pick(&of_kind))
}

fn exchange_nodes(random: &mut Random, draft: &mut Draft) {
    if let (Some(one), Some(other)) = (some_node(random, draft), some_net(random, draft)) {
        draft.nodes.swap(one, other);
    }
}

/// A node as another one is: equal nodes, or one too few.
fn copy_node(random: &mut Random, draft: &mut Draft) {
    if let (Some(one), Some(other)) = (some_node(random, draft), some_net(random, draft)) {
        let node = draft.nodes[one];
        if random.flag() {
            draft.nodes[other] = node;
        } else {
            draft.nodes.push(node);
        }
    }
}

/// Another kind, with the words that it needs.
fn other_kind(random: &mut Random, draft: &mut Draft) {
    if let Some(net) = some_node(random, draft) {
        draft.nodes[net] = plain_node(random, net as u32);
    }
}

/// An input node as output node of its signal and bit, or the other way round.
fn other_direction(random: &mut Random, draft: &mut Draft) {
    let ports: Vec<usize> = (1..draft.nodes.len()).filter(|&net| matches!(draft.nodes[net][0], 0 | 8)).collect();
    if !ports.is_empty() {
        let node = &mut draft.nodes[random.pick(&ports)];
        (node[0], node[3]) = if node[0] == 0 { (8, 0) } else { (0, ABSENT) };
    }
}

/// A node at the end that no record lists.
fn add_node(random: &mut Random, draft: &mut Draft) {
    let net = draft.nodes.len() as u32;
    draft.nodes.push(plain_node(random, net));
}

/// A node that is right by itself, if a net is below it.
fn plain_node(random: &mut Random, net: u32) -> [u32; NODE_WORDS] {
    let kind = random.range(0, 11);
    let (owners, bits) = match kind {
        0 | 8 => (512, 1_024),
        1 => (2, 0),
        7 => (256, 1_024),
        9 => (16, 2_048),
        10 => (3, 1_024),
        11 => (3, 1),
        _ => (0, 0),
    };
    let mut below = |most: u32| match most {
        0 => ABSENT,
        _ if random.flag() => random.below(most.min(3) as usize) as u32,
        _ => random.below(most as usize) as u32,
    };
    let mut node = [kind, below(owners), below(bits), ABSENT, ABSENT, ABSENT];
    let inputs = [0, 0, 2, 2, 2, 1, 3, 0, 1, 0, 0, 0][kind as usize];
    node[3..3 + inputs].fill_with(|| below(net.max(1)));
    node
}

/// A record of some words.
fn add_record(random: &mut Random, draft: &mut Draft) {
    let sort = random.range(0, 5);
    let length = random.pick(&[1, 3, 4, 6, 7, 13, 20]);
    let nets = draft.nodes.len() + 1;
    let record = [sort].into_iter().chain((1..length).map(|_| random.below(nets) as u32)).collect();
    draft.records.insert(random.below(draft.records.len() + 1), record);
}

/// Two nets that records list as their own, exchanged.
fn exchange_listings(random: &mut Random, draft: &mut Draft) {
    let mut listing = || {
        let at = some_record(random, draft)?;
        let fields = layout(&draft.records[at])?;
        let own: Vec<usize> = (0..fields.len()).filter(|&word| matches!(fields[word].1, Role::Own(_))).collect();
        (!own.is_empty()).then(|| (at, random.pick(&own)))
    };
    if let (Some((one, word)), Some((other, second))) = (listing(), listing()) {
        let net = draft.records[one][word];
        draft.records[one][word] = draft.records[other][second];
        draft.records[other][second] = net;
    }
}

// ---- words ----

/// A value at a border of some rule.
fn border_value(random: &mut Random) -> u32 {
    random.pick(&[
        0, 1, 2, 3, 4, 5, 11, 12, 15, 16, 17, 31, 32, 33, 255, 256, 257, 511, 512, 513, 1_023, 1_024, 1_025, 2_047, 2_048, 65_535,
        65_536, 65_537, 0x5555_5556, 0x7fff_ffff, 0x8000_0000, 0xffff_fffd, 0xffff_fffe, ABSENT,
    ])
}

/// Another value for a word that holds `old`.
fn other_value(random: &mut Random, old: u32, nets: u32) -> u32 {
    if old == ABSENT && random.chance(30) {
        return random.pick(&[0, 0, 1, nets]);
    }
    match random.below(12) {
        0 | 1 => old.wrapping_add(1),
        2 | 3 => old.wrapping_sub(1),
        4 | 5 => border_value(random),
        6 => ABSENT,
        7 => 0,
        8 | 9 => random.below(nets as usize + 2) as u32,
        10 => nets,
        _ => random.next() as u32,
    }
}

fn damage_words(random: &mut Random, words: &mut Vec<u32>) {
    match random.below(20) {
        0 | 1 => header_word(random, words),
        2 => sizes(random, words),
        3..=8 => node_word(random, words),
        9..=15 => record_word(random, words),
        16 | 17 => exchange_words(random, words),
        18 => cut(random, words),
        _ => extend(random, words),
    }
}

fn nets_of(words: &[u32]) -> u32 {
    words.get(1).copied().unwrap_or(0).min(65_535)
}

fn set(random: &mut Random, words: &mut [u32], at: usize) {
    let nets = nets_of(words);
    if let Some(word) = words.get_mut(at) {
        *word = other_value(random, *word, nets);
    }
}

fn header_word(random: &mut Random, words: &mut [u32]) {
    let at = random.below(HEADER_WORDS);
    set(random, words, at);
}

/// Net count, list words used or list offset, so that other words are taken for
/// nodes and records.
fn sizes(random: &mut Random, words: &mut Vec<u32>) {
    if words.len() < 5 {
        return;
    }
    match random.below(6) {
        0 => words[1] = words[1].wrapping_sub(1),
        1 => words[1] = words[1].wrapping_add(1),
        2 => words[3] = words[3].wrapping_sub(random.range(1, 4)),
        3 => words[3] = words[3].wrapping_add(random.range(1, 4)),
        4 => words[4] = words[4].wrapping_sub(6),
        _ => {
            words[4] = words[4].wrapping_add(6);
            words.extend([0; NODE_WORDS]);
        }
    }
}

/// A word of a node: each kind that is there as likely as any other, also unused
/// nodes.
fn node_word(random: &mut Random, words: &mut [u32]) {
    let nets = nets_of(words) as usize;
    let end = words.get(4).map_or(0, |&word| word as usize).min(words.len());
    if random.chance(8) {
        let first = HEADER_WORDS + NODE_WORDS * nets;
        if first < end {
            let at = first + random.below(end - first);
            set(random, words, at);
        }
        return;
    }
    let nodes = words.get(HEADER_WORDS..end).map_or(0, |nodes| nodes.len() / NODE_WORDS).min(nets);
    let kind_at = |net: usize| words[HEADER_WORDS + NODE_WORDS * net];
    let kinds: Vec<u32> = (0..12).filter(|&kind| (0..nodes).any(|net| kind_at(net) == kind)).collect();
    if kinds.is_empty() {
        return;
    }
    let kind = random.pick(&kinds);
    let of_kind: Vec<usize> = (0..nodes).filter(|&net| kind_at(net) == kind).collect();
    let (net, word) = (random.pick(&of_kind), random.below(NODE_WORDS));
    let at = HEADER_WORDS + NODE_WORDS * net + word;
    if word > 2 && words[at] != ABSENT && random.flag() {
        // An input that is not lower.
        words[at] = net as u32 + random.range(0, 1);
    } else {
        set(random, words, at);
    }
}

/// A word of a record: each sort that is there as likely as any other, each of its
/// fields too.
fn record_word(random: &mut Random, words: &mut [u32]) {
    if let Some((start, length)) = some_stretch(random, words) {
        let fields = layout(&words[start..start + length]).unwrap_or_default();
        let mut names: Vec<&str> = fields.iter().map(|(name, _)| *name).collect();
        names.dedup();
        let word = if names.is_empty() {
            random.below(length)
        } else {
            let name = random.pick(&names);
            let of_name: Vec<usize> = (0..fields.len()).filter(|&word| fields[word].0 == name).collect();
            random.pick(&of_name)
        };
        match fields.get(word) {
            // An output of its own cell, or the net above one.
            Some((_, Role::Operand | Role::Carry)) if random.flag() => {
                words[start + word] = words[start + length - 1].wrapping_add(random.range(0, 1));
            }
            Some((name, _)) if name.ends_with("width") && random.chance(30) => long_width(random, &mut words[start..], word),
            _ => set(random, words, start + word),
        }
    }
}

/// A width that gives a length near the old one, modulo 2^32.
fn long_width(random: &mut Random, record: &mut [u32], word: usize) {
    match record[0] {
        0 => record[word] = random.pick(&[ABSENT - 2, ABSENT - 1, ABSENT]),
        // Three times this is 2, 1 or 3.
        3 => record[word] = random.pick(&[0x5555_5556, 0xaaaa_aaab, 1, 0x5555_5557]),
        4 => record[word] ^= 0x8000_0000,
        _ => {
            let other = if word % 2 == 0 { word + 1 } else { word - 1 };
            let step = random.range(1, 8);
            record[word] = record[word].wrapping_sub(step);
            record[other] = record[other].wrapping_add(step);
        }
    }
}

/// Where a record begins in the slice, and its length.
fn some_stretch(random: &mut Random, words: &[u32]) -> Option<(usize, usize)> {
    let starts = starts(words);
    let list = *words.get(4)? as usize;
    let stretches: Vec<(usize, usize)> = starts.windows(2).map(|pair| (list + pair[0], pair[1] - pair[0])).collect();
    let sorts: Vec<u32> = (0..5).filter(|sort| stretches.iter().any(|(start, _)| words[*start] == *sort)).collect();
    let sort = (!sorts.is_empty()).then(|| random.pick(&sorts))?;
    let of_sort: Vec<(usize, usize)> = stretches.into_iter().filter(|(start, _)| words[*start] == sort).collect();
    Some(random.pick(&of_sort))
}

/// Two words of one record, of one node, or of the whole slice.
fn exchange_words(random: &mut Random, words: &mut [u32]) {
    let (start, length) = match random.below(4) {
        0 | 1 => some_stretch(random, words).unwrap_or((0, words.len())),
        2 if nets_of(words) > 0 => (HEADER_WORDS + NODE_WORDS * random.below(nets_of(words) as usize), NODE_WORDS),
        _ => (0, words.len()),
    };
    if length > 0 && start + length <= words.len() {
        words.swap(start + random.below(length), start + random.below(length));
    }
}
