//! The same as lanes_program in plain Rust, for the comparison: rules as a list of structs, and as columns of words that are walked in blocks of
//! 64. It reads the same lines, and prints for each ruleset how many rules and packets there were, how many verdicts of both differ, the nanoseconds
//! that each took in all, and a sum of the verdicts. `bench/lanes` compiles it by `rustc -O`.
use std::collections::HashSet;
use std::io::Read;
use std::net::IpAddr;
use std::time::Instant;

#[derive(Clone, Copy)]
struct Address {
    is_v6: bool,
    number: u128,
}

impl Address {
    /// One of its words of 32 bits, the highest first: an IPv4 address has one.
    fn word(self, place: usize) -> u32 {
        let last = if self.is_v6 { 3 } else { 0 };
        (self.number >> (32 * (last - place))) as u32
    }
}

#[derive(Clone, Copy)]
struct Network {
    address: Address,
    mask: u128,
}

enum Host {
    Any,
    Net(Network, bool),
    Table(bool),
}

struct Ports {
    lowest: u32,
    highest: u32,
    is_inverted: bool,
}

struct Rule {
    direction: Option<u8>,
    interface: Option<String>,
    is_v6: bool,
    protocol: u8,
    source: Host,
    source_ports: Ports,
    destination: Host,
    destination_ports: Ports,
    is_quick: bool,
}

struct Packet {
    direction: u8,
    interface: String,
    protocol: u8,
    source: Address,
    source_port: u32,
    destination: Address,
    destination_port: u32,
}

/// Networks by their masks.
#[derive(Default)]
struct Table {
    lengths: Vec<(bool, u128, HashSet<u128>)>,
}

impl Table {
    fn add(&mut self, net: Network) {
        let key = (net.address.is_v6, net.mask);
        let place = self.lengths.iter().position(|it| (it.0, it.1) == key).unwrap_or_else(|| {
            self.lengths.push((key.0, key.1, HashSet::new()));
            self.lengths.len() - 1
        });
        self.lengths[place].2.insert(net.address.number & net.mask);
    }

    fn holds(&self, address: Address) -> bool {
        self.lengths.iter().any(|(is_v6, mask, nets)| *is_v6 == address.is_v6 && nets.contains(&(address.number & mask)))
    }
}

fn address(text: &str) -> Address {
    match text.parse().expect("an address") {
        IpAddr::V4(it) => Address { is_v6: false, number: u128::from(u32::from(it)) },
        IpAddr::V6(it) => Address { is_v6: true, number: u128::from(it) },
    }
}

fn network(text: &str) -> Network {
    let (base, len) = text.split_once('/').expect("a network");
    let address = address(base);
    let width = if address.is_v6 { 128 } else { 32 };
    let mask = (0..len.parse::<u32>().expect("a length")).fold(0, |mask: u128, bit| mask | 1 << (width - 1 - bit));
    Network { address, mask }
}

fn protocol(text: &str) -> u8 {
    if text == "tcp" { 6 } else { 17 }
}

fn direction(text: &str) -> u8 {
    u8::from(text == "out")
}

fn ports(words: &[&str]) -> Ports {
    let number = |text: &str| text.parse::<u32>().expect("a port");
    let between = |lowest, highest, is_inverted| if lowest <= highest { Ports { lowest, highest, is_inverted } } else { Ports { lowest: 1, highest: 0, is_inverted } };
    match words {
        [] => between(0, 65535, false),
        [one] => match one.split_once(':') {
            Some((first, last)) => between(number(first), number(last), false),
            None => between(number(one), number(one), false),
        },
        ["!=", n] => between(number(n), number(n), true),
        ["<", n] if number(n) == 0 => between(1, 0, false),
        ["<", n] => between(0, number(n) - 1, false),
        ["<=", n] => between(0, number(n), false),
        [">", n] => between(number(n) + 1, 65535, false),
        [">=", n] => between(number(n), 65535, false),
        [first, "><", last] => {
            if number(last) == 0 { between(1, 0, false) } else { between(number(first) + 1, number(last) - 1, false) }
        }
        [first, "<>", last] => between(number(first), number(last), true),
        _ => panic!("ports {words:?}"),
    }
}

fn host(words: &[&str]) -> (Host, Ports) {
    let (is_negated, words) = if words[0] == "!" { (true, &words[1..]) } else { (false, words) };
    let host = match words[0] {
        "any" => Host::Any,
        "<t>" => Host::Table(is_negated),
        net => Host::Net(network(net), is_negated),
    };
    (host, ports(words.get(2..).unwrap_or(&[])))
}

fn rule(text: &str) -> Rule {
    let words: Vec<&str> = text.trim_end_matches(" no state").split(' ').collect();
    let place = |word| words.iter().position(|it| *it == word);
    let (from, to) = (place("from").expect("from"), place("to").expect("to"));
    let (source, source_ports) = host(&words[from + 1..to]);
    let (destination, destination_ports) = host(&words[to + 1..]);
    Rule {
        direction: place("in").or(place("out")).map(|at| direction(words[at])),
        interface: place("on").map(|at| words[at + 1].to_string()),
        is_v6: place("inet6").is_some(),
        protocol: protocol(words[place("proto").expect("proto") + 1]),
        source,
        source_ports,
        destination,
        destination_ports,
        is_quick: place("quick").is_some(),
    }
}

fn packet(text: &str) -> Packet {
    let words: Vec<&str> = text.split(' ').collect();
    Packet {
        direction: direction(words[0]),
        interface: words[1].to_string(),
        protocol: protocol(words[2]),
        source: address(words[3]),
        source_port: words[4].parse().expect("a port"),
        destination: address(words[5]),
        destination_port: words[6].parse().expect("a port"),
    }
}

// ---- a list of structs

fn host_holds(host: &Host, table: &Table, address: Address) -> bool {
    match host {
        Host::Any => true,
        Host::Net(net, is_negated) => (net.address.is_v6 == address.is_v6 && (net.address.number ^ address.number) & net.mask == 0) != *is_negated,
        Host::Table(is_negated) => table.holds(address) != *is_negated,
    }
}

fn ports_hold(ports: &Ports, port: u32) -> bool {
    (ports.lowest <= port && port <= ports.highest) != ports.is_inverted
}

impl Rule {
    fn matches(&self, table: &Table, packet: &Packet) -> bool {
        self.direction.is_none_or(|it| it == packet.direction)
            && self.is_v6 == packet.source.is_v6
            && self.protocol == packet.protocol
            && self.interface.as_ref().is_none_or(|it| *it == packet.interface)
            && ports_hold(&self.source_ports, packet.source_port)
            && ports_hold(&self.destination_ports, packet.destination_port)
            && host_holds(&self.source, table, packet.source)
            && host_holds(&self.destination, table, packet.destination)
    }
}

fn by_list(rules: &[Rule], table: &Table, packet: &Packet) -> u64 {
    let mut last = 0;
    for (number, rule) in (1..).zip(rules) {
        if rule.matches(table, packet) {
            if rule.is_quick {
                return number;
            }
            last = number;
        }
    }
    last
}

// ---- columns, in blocks of 64

const BLOCK: usize = 64;

#[derive(Default)]
struct Masked {
    masks: Vec<u32>,
    words: Vec<u32>,
}

impl Masked {
    fn push(&mut self, mask: u32, word: u32) {
        self.masks.push(mask);
        self.words.push(word & mask);
    }

    fn holding(&self, block: usize, word: u32) -> u64 {
        let place = block * BLOCK..(block + 1) * BLOCK;
        let mut mask = 0;
        for (i, (m, w)) in self.masks[place.clone()].iter().zip(&self.words[place]).enumerate() {
            mask |= u64::from(word & m == *w) << i;
        }
        mask
    }
}

#[derive(Default)]
struct Hosts {
    words: [Masked; 4],
    tabled: Vec<u64>,
    inverted: Vec<u64>,
}

impl Hosts {
    fn push(&mut self, host: &Host) {
        let (net, is_tabled, is_inverted) = match host {
            Host::Any => (None, false, false),
            Host::Net(net, is_negated) => (Some(net), false, *is_negated),
            Host::Table(is_negated) => (None, true, *is_negated),
        };
        let (mask, number) = net.map_or((0, 0), |it| (it.mask, it.address.number));
        let width = if net.is_some_and(|it| it.address.is_v6) { 128 } else { 32 };
        let place = self.words[0].masks.len();
        set(&mut self.tabled, place, is_tabled);
        set(&mut self.inverted, place, is_inverted);
        for (i, column) in self.words.iter_mut().enumerate() {
            let word = |it: u128| if 32 * (i + 1) > width { 0 } else { (it >> (width - 32 * (i + 1))) as u32 };
            column.push(word(mask), word(number));
        }
    }

    fn holding(&self, block: usize, address: Address) -> u64 {
        let width = if address.is_v6 { 4 } else { 1 };
        let mut mask = u64::MAX;
        for (i, column) in self.words[..width].iter().enumerate() {
            mask &= column.holding(block, address.word(i));
        }
        // a table's rule is asked for later
        (mask ^ self.inverted[block]) | self.tabled[block]
    }
}

#[derive(Default)]
struct PortColumns {
    lowest: Vec<u32>,
    highest: Vec<u32>,
    inverted: Vec<u64>,
}

impl PortColumns {
    fn push(&mut self, ports: &Ports) {
        set(&mut self.inverted, self.lowest.len(), ports.is_inverted);
        self.lowest.push(ports.lowest);
        self.highest.push(ports.highest);
    }

    fn holding(&self, block: usize, port: u32) -> u64 {
        let place = block * BLOCK..(block + 1) * BLOCK;
        let mut mask = 0;
        for (i, (lowest, highest)) in self.lowest[place.clone()].iter().zip(&self.highest[place]).enumerate() {
            mask |= u64::from(*lowest <= port && port <= *highest) << i;
        }
        mask ^ self.inverted[block]
    }
}

/// Rules in columns, as many as fill blocks: those that are none have a head that no packet has.
#[derive(Default)]
struct Columns {
    interfaces: Vec<String>,
    heads: Masked,
    sources: Hosts,
    destinations: Hosts,
    source_ports: PortColumns,
    destination_ports: PortColumns,
    quick: Vec<u64>,
    /// Whether a host is a table or inverted.
    special: Vec<u8>,
}

fn set(bits: &mut Vec<u64>, place: usize, bit: bool) {
    if place % BLOCK == 0 {
        bits.push(0);
    }
    bits[place / BLOCK] |= u64::from(bit) << (place % BLOCK);
}

fn head(interface: usize, protocol: u8, is_v6: bool, direction: u8) -> u32 {
    (interface as u32) << 10 | u32::from(protocol) << 2 | u32::from(is_v6) << 1 | u32::from(direction)
}

impl Columns {
    fn of(rules: &[Rule]) -> Columns {
        let mut columns = Columns::default();
        let nothing = Rule {
            direction: None,
            interface: None,
            is_v6: false,
            protocol: 0,
            source: Host::Any,
            source_ports: ports(&[]),
            destination: Host::Any,
            destination_ports: ports(&[]),
            is_quick: false,
        };
        for number in 0..rules.len().div_ceil(BLOCK) * BLOCK {
            let rule = rules.get(number).unwrap_or(&nothing);
            let interface = rule.interface.as_ref().map(|name| columns.place_of_new(name));
            let word = head(interface.unwrap_or(0), rule.protocol, rule.is_v6, rule.direction.unwrap_or(0));
            let mask = head(if interface.is_some() { 0x3f_ffff } else { 0 }, 255, true, u8::from(rule.direction.is_some()));
            columns.heads.push(mask, word);
            columns.sources.push(&rule.source);
            columns.destinations.push(&rule.destination);
            columns.source_ports.push(&rule.source_ports);
            columns.destination_ports.push(&rule.destination_ports);
            set(&mut columns.quick, number, rule.is_quick);
            let is_special = |host: &Host| matches!(host, Host::Table(_) | Host::Net(_, true));
            columns.special.push(u8::from(is_special(&rule.source) || is_special(&rule.destination)));
        }
        columns
    }

    fn place_of(&self, name: &str) -> usize {
        self.interfaces.iter().position(|it| it == name).unwrap_or(self.interfaces.len())
    }

    fn place_of_new(&mut self, name: &str) -> usize {
        let place = self.place_of(name);
        if place == self.interfaces.len() {
            self.interfaces.push(name.to_string());
        }
        place
    }

    /// Which rules of a block match as if each table held, by heads and the first words of hosts before all else.
    fn near(&self, block: usize, head: u32, packet: &Packet) -> u64 {
        let place = block * BLOCK..(block + 1) * BLOCK;
        let (heads, sources, destinations) = (&self.heads, &self.sources.words[0], &self.destinations.words[0]);
        let (source, destination) = (packet.source.word(0), packet.destination.word(0));
        let mut mask = 0;
        for i in place {
            let from = source & sources.masks[i] == sources.words[i];
            let to = destination & destinations.masks[i] == destinations.words[i];
            let open = self.special[i] != 0;
            mask |= u64::from((head & heads.masks[i] == heads.words[i]) & (from & to | open)) << (i % BLOCK);
        }
        if mask != 0 {
            mask &= self.sources.holding(block, packet.source) & self.destinations.holding(block, packet.destination);
        }
        if mask != 0 {
            mask &= self.source_ports.holding(block, packet.source_port) & self.destination_ports.holding(block, packet.destination_port);
        }
        mask
    }
}

fn tables_hold(rule: &Rule, table: &Table, packet: &Packet) -> bool {
    let says = |host: &Host, address| !matches!(host, Host::Table(_)) || host_holds(host, table, address);
    says(&rule.source, packet.source) && says(&rule.destination, packet.destination)
}

fn by_columns(columns: &Columns, rules: &[Rule], table: &Table, packet: &Packet) -> u64 {
    let head = head(columns.place_of(&packet.interface), packet.protocol, packet.source.is_v6, packet.direction);
    let mut last = 0;
    for block in 0..columns.quick.len() {
        let mut left = columns.near(block, head, packet);
        let tabled = columns.sources.tabled[block] | columns.destinations.tabled[block];
        while left != 0 {
            let lane = left.trailing_zeros() as usize;
            left &= left - 1;
            let number = block * BLOCK + lane;
            if tabled >> lane & 1 == 0 || tables_hold(&rules[number], table, packet) {
                last = number as u64 + 1;
                if columns.quick[block] >> lane & 1 == 1 {
                    return last;
                }
            }
        }
    }
    last
}

fn judge(rules: &[Rule], table: &Table, packets: &[Packet]) {
    let columns = Columns::of(rules);
    let start = Instant::now();
    let listed: Vec<u64> = packets.iter().map(|it| by_list(rules, table, it)).collect();
    let list = start.elapsed().as_nanos();
    let start = Instant::now();
    let told: Vec<u64> = packets.iter().map(|it| by_columns(&columns, rules, table, it)).collect();
    let blocks = start.elapsed().as_nanos();
    let apart = listed.iter().zip(&told).filter(|(a, b)| a != b).count();
    let sum = told.iter().fold(0_u64, |sum, it| sum.wrapping_mul(1_000_003).wrapping_add(*it));
    println!("{} {} {apart} {blocks} {list} {sum}", rules.len(), packets.len());
}

fn main() {
    let mut text = String::new();
    std::io::stdin().read_to_string(&mut text).expect("input");
    let (mut table, mut packets, mut rules) = (Table::default(), Vec::new(), Vec::new());
    for line in text.lines() {
        match line.split_once(' ') {
            Some(("r", it)) => rules.push(rule(it)),
            Some(("p", it)) => packets.push(packet(it)),
            Some(("t", it)) => table.add(network(it)),
            _ => {
                judge(&rules, &table, &packets);
                rules.clear();
            }
        }
    }
}
