//! The trial of all profiles of a game of whole bounded variables, in plain Rust with `i128`.
//!
//! `trial FILE` reads a game `zero-game/1` as `games.py` writes it, and prints `verdict none` or
//! `verdict profile` and a line `player` with the values of each player of the first equilibrium.
//! Rows and pairs are read; names stand for variables by their place.

use std::collections::HashMap;

enum Json {
    Object(HashMap<String, Json>),
    List(Vec<Json>),
    Text(String),
    Number(i128),
    Flag(bool),
}

struct Reader<'a> {
    bytes: &'a [u8],
    at: usize,
}

impl Reader<'_> {
    fn peek(&mut self) -> u8 {
        while self.bytes[self.at].is_ascii_whitespace() {
            self.at += 1;
        }
        self.bytes[self.at]
    }

    fn take(&mut self, byte: u8) -> bool {
        let found = self.peek() == byte;
        self.at += usize::from(found);
        found
    }

    fn text(&mut self) -> String {
        assert!(self.take(b'"'));
        let start = self.at;
        while self.bytes[self.at] != b'"' {
            self.at += 1;
        }
        self.at += 1;
        String::from_utf8(self.bytes[start..self.at - 1].to_vec()).unwrap()
    }

    fn value(&mut self) -> Json {
        match self.peek() {
            b'{' => {
                self.at += 1;
                let mut members = HashMap::new();
                while !self.take(b'}') {
                    let name = self.text();
                    assert!(self.take(b':'));
                    members.insert(name, self.value());
                    self.take(b',');
                }
                Json::Object(members)
            }
            b'[' => {
                self.at += 1;
                let mut items = Vec::new();
                while !self.take(b']') {
                    items.push(self.value());
                    self.take(b',');
                }
                Json::List(items)
            }
            b'"' => Json::Text(self.text()),
            b't' => {
                self.at += 4;
                Json::Flag(true)
            }
            b'f' => {
                self.at += 5;
                Json::Flag(false)
            }
            _ => {
                let start = self.at;
                while matches!(self.bytes[self.at], b'-' | b'0'..=b'9') {
                    self.at += 1;
                }
                let digits = std::str::from_utf8(&self.bytes[start..self.at]).unwrap();
                Json::Number(digits.parse().unwrap())
            }
        }
    }
}

impl Json {
    fn list(&self, name: &str) -> &[Json] {
        match self {
            Json::Object(members) => match members.get(name) {
                Some(Json::List(items)) => items,
                _ => &[],
            },
            _ => &[],
        }
    }

    fn member(&self, name: &str) -> &Json {
        match self {
            Json::Object(members) => &members[name],
            _ => panic!("no object"),
        }
    }

    fn items(&self) -> &[Json] {
        match self {
            Json::List(items) => items,
            _ => panic!("no list"),
        }
    }

    fn text(&self) -> &str {
        match self {
            Json::Text(text) => text,
            _ => panic!("no text"),
        }
    }

    fn number(&self) -> i128 {
        match self {
            Json::Number(number) => *number,
            _ => panic!("no number"),
        }
    }

    fn is_true(&self) -> bool {
        matches!(self, Json::Flag(true))
    }
}

struct Cross {
    own: usize,
    player: usize,
    var: usize,
    coef: i128,
}

struct Row {
    coef: Vec<(usize, i128)>,
    le: i128,
}

struct Player {
    ups: Vec<i128>,
    rows: Vec<Row>,
    cost: Vec<(usize, i128)>,
    cross: Vec<Cross>,
}

fn place(names: &[&str], name: &Json) -> usize {
    names.iter().position(|n| *n == name.text()).unwrap()
}

fn terms(names: &[&str], items: &[Json]) -> Vec<(usize, i128)> {
    let term = |t: &Json| (place(names, &t.items()[0]), t.items()[1].number());
    items.iter().map(term).collect()
}

fn read(text: &str) -> Vec<Player> {
    let game = Reader { bytes: text.as_bytes(), at: 0 }.value();
    let players = game.list("players");
    let names: Vec<&str> = players.iter().map(|p| p.member("name").text()).collect();
    let var_names = |p: &'_ Json| -> Vec<String> {
        p.list("vars").iter().map(|v| v.member("name").text().to_string()).collect()
    };
    let all: Vec<Vec<String>> = players.iter().map(var_names).collect();
    let mut made = Vec::new();
    for (i, p) in players.iter().enumerate() {
        let own: Vec<&str> = all[i].iter().map(|n| n.as_str()).collect();
        let up = |v: &Json| {
            assert!(v.member("int").is_true());
            v.member("up").number()
        };
        let row = |r: &Json| Row { coef: terms(&own, r.list("terms")), le: r.member("le").number() };
        let cross = |t: &Json| {
            let t = t.items();
            let player = place(&names, &t[1]);
            let other: Vec<&str> = all[player].iter().map(|n| n.as_str()).collect();
            Cross { own: place(&own, &t[0]), player, var: place(&other, &t[2]), coef: t[3].number() }
        };
        made.push(Player {
            ups: p.list("vars").iter().map(up).collect(),
            rows: p.list("rows").iter().map(row).collect(),
            cost: terms(&own, p.list("cost")),
            cross: p.list("cross").iter().map(cross).collect(),
        });
    }
    made
}

/// The feasible points, ascending by their values.
fn choices(player: &Player) -> Vec<Vec<i128>> {
    let mut found = Vec::new();
    let mut point = vec![0; player.ups.len()];
    loop {
        let holds = |row: &Row| row.coef.iter().map(|(v, c)| c * point[*v]).sum::<i128>() <= row.le;
        if player.rows.iter().all(holds) {
            found.push(point.clone());
        }
        let Some(v) = (0..point.len()).rev().find(|v| point[*v] < player.ups[*v]) else {
            return found;
        };
        point[v] += 1;
        point[v + 1..].fill(0);
    }
}

fn cost(player: &Player, i: usize, points: &[&Vec<i128>]) -> i128 {
    let own: i128 = player.cost.iter().map(|(v, c)| c * points[i][*v]).sum();
    let cross = player.cross.iter().map(|t| t.coef * points[i][t.own] * points[t.player][t.var]);
    own + cross.sum::<i128>()
}

fn first_equilibrium(players: &[Player]) -> Option<Vec<Vec<i128>>> {
    let lists: Vec<Vec<Vec<i128>>> = players.iter().map(choices).collect();
    let count = players.len();
    let mut strides = vec![1; count];
    for k in (1..count).rev() {
        strides[k - 1] = strides[k] * lists[k].len();
    }
    let total = strides[0] * lists[0].len();
    let mut costs = Vec::with_capacity(total * count);
    let mut lines = Vec::with_capacity(total * count);
    let mut places = vec![0; count];
    for n in 0..total {
        let points: Vec<&Vec<i128>> = (0..count).map(|k| &lists[k][places[k]]).collect();
        for i in 0..count {
            costs.push(cost(&players[i], i, &points));
            lines.push((n - places[i] * strides[i]) * count + i);
        }
        if let Some(k) = (0..count).rev().find(|k| places[*k] + 1 < lists[*k].len()) {
            places[k] += 1;
            places[k + 1..].fill(0);
        }
    }
    let mut least = costs.clone();
    for (t, line) in lines.iter().enumerate() {
        least[*line] = least[*line].min(costs[t]);
    }
    let best = |n: &usize| (n * count..(n + 1) * count).all(|t| costs[t] <= least[lines[t]]);
    let n = (0..total).find(best)?;
    Some((0..count).map(|k| lists[k][n / strides[k] % lists[k].len()].clone()).collect())
}

fn main() {
    let file = std::env::args().nth(1).expect("trial FILE");
    let text = std::fs::read_to_string(file).unwrap();
    match first_equilibrium(&read(&text)) {
        None => println!("verdict none"),
        Some(points) => {
            println!("verdict profile");
            for point in points {
                println!("player {point:?}");
            }
        }
    }
}
