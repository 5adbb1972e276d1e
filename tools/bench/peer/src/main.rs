//! Rolls facts up as a plain program would.
//!
//!     peer rollup SCHEMA INSTANCE FACTS CATEGORY
//!     peer check SCHEMA INSTANCE
//!     peer cubeview K SCHEMA.. INSTANCE.. FACTS TARGET
//!
//! It checks the five laws of an instance, and no constraint: a schema that has one is refused. What is wrong with an
//! input is told in a line of its own making. For valid inputs it prints the bytes that `olap` prints.

use indexmap::IndexMap;
use std::collections::BTreeMap;
use std::error::Error;
use std::io::Write;

const NONE: u32 = u32::MAX;

type Answer<T> = Result<T, Box<dyn Error>>;

/// Categories by number, `All` as the first, and the parents of each.
struct Graph {
    names: IndexMap<String, ()>,
    parents: Vec<Vec<u16>>,
}

impl Graph {
    fn read(text: &str) -> Answer<Graph> {
        let mut graph = Graph { names: IndexMap::new(), parents: vec![vec![]] };
        graph.names.insert("All".into(), ());
        for line in text.lines() {
            match line.split_whitespace().collect::<Vec<_>>()[..] {
                [] | ["schema", "1"] => {}
                [word, ..] if word.starts_with('#') => {}
                ["category", name] => {
                    graph.names.insert(name.into(), ());
                    graph.parents.push(vec![]);
                }
                ["edge", child, parent] => {
                    let parent = graph.number(parent)?;
                    let child = graph.number(child)?;
                    graph.parents[child as usize].push(parent);
                }
                _ => return Err(format!("no category and no edge: {line}").into()),
            }
        }
        Ok(graph)
    }

    fn number(&self, name: &str) -> Answer<u16> {
        self.names.get_index_of(name).map(|c| c as u16).ok_or_else(|| format!("no category {name}").into())
    }

    fn is_bottom(&self, c: u16) -> bool {
        c != 0 && !self.parents.iter().any(|parents| parents.contains(&c))
    }
}

/// Members in the order of their records, `all` as the last.
#[derive(Default)]
struct Instance {
    places: IndexMap<Vec<u8>, ()>,
    categories: Vec<u16>,
    parents: Vec<u32>,
    ends: Vec<u32>,
}

impl Instance {
    fn read(graph: &Graph, text: &[u8]) -> Answer<Instance> {
        let mut reader = csv::ReaderBuilder::new().flexible(true).from_reader(text);
        if reader.byte_headers()? != vec!["id", "category", "name", "parents"] {
            return Err("another header".into());
        }
        let mut instance = Instance::default();
        let (mut fields, mut field_ends) = (Vec::new(), Vec::new());
        let mut record = csv::ByteRecord::new();
        while reader.read_byte_record(&mut record)? {
            if record.len() != 4 {
                return Err("a record of another length".into());
            }
            for field in &record {
                std::str::from_utf8(field)?;
            }
            let category = graph.number(std::str::from_utf8(&record[1])?)?;
            let id = &record[0];
            let is_bad = id.is_empty() || id == b"all" || id.contains(&b';');
            if category == 0 || is_bad || id.len() > 255 || record[2].len() > 255 {
                return Err("a bad member".into());
            }
            if instance.places.insert(id.to_vec(), ()).is_some() || instance.places.len() == 16_777_215 {
                return Err("a member twice, or one too many".into());
            }
            instance.categories.push(category);
            fields.extend_from_slice(&record[3]);
            field_ends.push(fields.len());
        }
        instance.places.insert(b"all".to_vec(), ());
        instance.categories.push(0);
        instance.link(&fields, &field_ends)?;
        Ok(instance)
    }

    fn link(&mut self, fields: &[u8], field_ends: &[usize]) -> Answer<()> {
        let mut start = 0;
        for end in field_ends {
            let first = self.parents.len();
            if start < *end {
                for piece in fields[start..*end].split(|b| *b == b';') {
                    let parent = self.places.get_index_of(piece).ok_or("no such parent")? as u32;
                    if self.parents[first..].contains(&parent) {
                        return Err("a parent twice".into());
                    }
                    self.parents.push(parent);
                }
            }
            self.ends.push(self.parents.len() as u32);
            start = *end;
        }
        self.ends.push(self.parents.len() as u32);
        Ok(())
    }

    fn len(&self) -> usize {
        self.categories.len()
    }

    fn parents(&self, m: usize) -> &[u32] {
        let start = if m == 0 { 0 } else { self.ends[m - 1] };
        &self.parents[start as usize..self.ends[m] as usize]
    }

    /// For each member, parents before children: no member comes twice, or there is a cycle.
    fn upward(&self) -> Answer<Vec<u32>> {
        let mut children = vec![0u32; self.len() + 1];
        for p in &self.parents {
            children[*p as usize + 1] += 1;
        }
        for i in 0..self.len() {
            children[i + 1] += children[i];
        }
        let mut below = vec![0u32; self.parents.len()];
        let mut next = children.clone();
        for m in 0..self.len() {
            for p in self.parents(m) {
                below[next[*p as usize] as usize] = m as u32;
                next[*p as usize] += 1;
            }
        }
        let mut missing: Vec<u32> = (0..self.len()).map(|m| self.parents(m).len() as u32).collect();
        let mut order = vec![self.len() as u32 - 1];
        let mut at = 0;
        while at < order.len() {
            let m = order[at] as usize;
            for child in &below[children[m] as usize..children[m + 1] as usize] {
                missing[*child as usize] -= 1;
                if missing[*child as usize] == 0 {
                    order.push(*child);
                }
            }
            at += 1;
        }
        if order.len() < self.len() { Err("a cycle".into()) } else { Ok(order) }
    }

    /// The member of each category that each member reaches, where the five laws hold.
    fn ancestors(&self, graph: &Graph) -> Answer<Vec<u32>> {
        let width = graph.names.len();
        let all = self.len() - 1;
        for m in 0..self.len() {
            let above = &graph.parents[self.categories[m] as usize];
            if !self.parents(m).iter().all(|p| above.contains(&self.categories[*p as usize])) {
                return Err("a link without an edge".into());
            }
            if m != all && self.parents(m).is_empty() {
                return Err("a member without parents".into());
            }
        }
        let mut table = vec![NONE; self.len() * width];
        for m in self.upward()? {
            let m = m as usize;
            let own = self.categories[m] as usize;
            for p in self.parents(m) {
                for c in 0..width {
                    let above = table[*p as usize * width + c];
                    let cell = &mut table[m * width + c];
                    if above != NONE {
                        if *cell != NONE && *cell != above {
                            return Err("two ancestors in one category".into());
                        }
                        *cell = above;
                    }
                }
            }
            if table[m * width + own] != NONE {
                return Err("an ancestor in its own category".into());
            }
            table[m * width + own] = m as u32;
        }
        for m in 0..self.len() {
            let parents = self.parents(m);
            for p in parents {
                let c = self.categories[*p as usize] as usize;
                if parents.iter().any(|q| q != p && table[*q as usize * width + c] == *p) {
                    return Err("a shortcut".into());
                }
            }
        }
        Ok(table)
    }
}

/// What the facts at one member, or at a tuple of members, come to.
#[derive(Clone, Copy)]
struct Summary {
    count: u64,
    sum: i128,
    least: i64,
    greatest: i64,
}

impl Summary {
    const NONE: Summary = Summary { count: 0, sum: 0, least: i64::MAX, greatest: i64::MIN };

    fn add(&mut self, value: i64) {
        self.count += 1;
        self.sum += i128::from(value);
        self.least = self.least.min(value);
        self.greatest = self.greatest.max(value);
    }

    fn write(&self, writer: &mut csv::Writer<Vec<u8>>) -> Answer<()> {
        writer.write_field(itoa::Buffer::new().format(self.count))?;
        writer.write_field(itoa::Buffer::new().format(self.sum))?;
        writer.write_field(itoa::Buffer::new().format(self.least))?;
        writer.write_field(itoa::Buffer::new().format(self.greatest))?;
        Ok(writer.write_record(None::<&[u8]>)?)
    }
}

fn roll_up(graph: &Graph, instance: &Instance, table: &[u32], text: &[u8], target: u16) -> Answer<Vec<Summary>> {
    let width = graph.names.len();
    let bottoms: Vec<bool> = (0..width).map(|c| graph.is_bottom(c as u16)).collect();
    let mut summaries = vec![Summary::NONE; instance.len()];
    let mut reader = csv::ReaderBuilder::new().flexible(true).from_reader(text);
    if reader.byte_headers()? != vec!["member", "value"] {
        return Err("another header".into());
    }
    let mut record = csv::ByteRecord::new();
    while reader.read_byte_record(&mut record)? {
        if record.len() != 2 {
            return Err("a record of another length".into());
        }
        let m = instance.places.get_index_of(&record[0]).ok_or("no such member")?;
        if !bottoms[instance.categories[m] as usize] {
            return Err("a fact at no bottom member".into());
        }
        let value: i64 = std::str::from_utf8(&record[1])?.parse()?;
        let y = table[m * width + target as usize];
        if y != NONE {
            summaries[y as usize].add(value);
        }
    }
    Ok(summaries)
}

fn print(instance: &Instance, summaries: &[Summary]) -> Answer<Vec<u8>> {
    let mut writer = csv::Writer::from_writer(Vec::new());
    writer.write_record(["member", "count", "sum", "least", "greatest"])?;
    for (m, s) in summaries.iter().enumerate().filter(|(_, s)| s.count > 0) {
        let (id, _) = instance.places.get_index(m).ok_or("no such member")?;
        writer.write_field(id)?;
        s.write(&mut writer)?;
    }
    Ok(writer.into_inner()?)
}

/// Of one dimension: its bottom categories, its instance, and of each member the one that it reaches in the target's category.
struct Dimension {
    bottoms: Vec<bool>,
    instance: Instance,
    above: Vec<u32>,
}

impl Dimension {
    fn read(schema: &str, members: &str, target: &str) -> Answer<Dimension> {
        let graph = Graph::read(&std::fs::read_to_string(schema)?)?;
        let instance = Instance::read(&graph, &std::fs::read(members)?)?;
        let (width, target) = (graph.names.len(), graph.number(target)? as usize);
        let above = instance.ancestors(&graph)?.chunks(width).map(|row| row[target]).collect();
        let bottoms = (0..width).map(|c| graph.is_bottom(c as u16)).collect();
        Ok(Dimension { bottoms, instance, above })
    }
}

/// The rows of a cube's view, by the members' places, at most four.
fn roll_up_cube(dimensions: &[Dimension], text: &[u8]) -> Answer<BTreeMap<[u32; 4], Summary>> {
    let mut rows = BTreeMap::new();
    let mut reader = csv::ReaderBuilder::new().flexible(true).from_reader(text);
    let header: Vec<String> = (1..=dimensions.len()).map(|i| format!("m{i}")).chain(["value".into()]).collect();
    if reader.byte_headers()? != header {
        return Err("another header".into());
    }
    let mut record = csv::ByteRecord::new();
    while reader.read_byte_record(&mut record)? {
        if record.len() != dimensions.len() + 1 {
            return Err("a record of another length".into());
        }
        let mut key = [0; 4];
        let mut is_there = true;
        for (i, dimension) in dimensions.iter().enumerate() {
            let m = dimension.instance.places.get_index_of(&record[i]).ok_or("no such member")?;
            if !dimension.bottoms[dimension.instance.categories[m] as usize] {
                return Err("a fact at no bottom member".into());
            }
            key[i] = dimension.above[m];
            is_there &= key[i] != NONE;
        }
        let value: i64 = std::str::from_utf8(&record[dimensions.len()])?.parse()?;
        if is_there {
            rows.entry(key).or_insert(Summary::NONE).add(value);
        }
    }
    Ok(rows)
}

fn print_cube(dimensions: &[Dimension], rows: &BTreeMap<[u32; 4], Summary>) -> Answer<Vec<u8>> {
    let mut writer = csv::Writer::from_writer(Vec::new());
    for i in 1..=dimensions.len() {
        writer.write_field(format!("m{i}"))?;
    }
    writer.write_record(["count", "sum", "least", "greatest"])?;
    for (key, s) in rows {
        for (dimension, m) in dimensions.iter().zip(key) {
            let (id, _) = dimension.instance.places.get_index(*m as usize).ok_or("no such member")?;
            writer.write_field(id)?;
        }
        s.write(&mut writer)?;
    }
    Ok(writer.into_inner()?)
}

fn cubeview(words: &[&str]) -> Answer<Vec<u8>> {
    let [files @ .., facts, target] = words else { return Err("too few words".into()) };
    let (schemas, instances) = files.split_at(files.len() / 2);
    let targets: Vec<&str> = target.split(',').collect();
    if schemas.len() != instances.len() || schemas.len() != targets.len() || schemas.is_empty() || schemas.len() > 4 {
        return Err("as many schemas, instances and categories, from one to four".into());
    }
    let dimensions = schemas.iter().zip(instances).zip(targets).map(|((s, i), t)| Dimension::read(s, i, t)).collect::<Answer<Vec<_>>>()?;
    print_cube(&dimensions, &roll_up_cube(&dimensions, &std::fs::read(facts)?)?)
}

fn main() -> Answer<()> {
    let words: Vec<String> = std::env::args().skip(1).collect();
    let words: Vec<&str> = words.iter().map(String::as_str).collect();
    if let ["cubeview", _, rest @ ..] = &words[..] {
        return Ok(std::io::stdout().write_all(&cubeview(rest)?)?);
    }
    let (schema, members, rest) = match words[..] {
        ["rollup", schema, members, facts, target] => (schema, members, Some((facts, target))),
        ["check", schema, members] => (schema, members, None),
        _ => return Err("peer rollup SCHEMA INSTANCE FACTS CATEGORY | peer check SCHEMA INSTANCE | peer cubeview K ..".into()),
    };
    let graph = Graph::read(&std::fs::read_to_string(schema)?)?;
    let instance = Instance::read(&graph, &std::fs::read(members)?)?;
    let table = instance.ancestors(&graph)?;
    let out = match rest {
        None => format!("legal {}\n", instance.len() - 1).into_bytes(),
        Some((facts, target)) => {
            let target = graph.number(target)?;
            let summaries = roll_up(&graph, &instance, &table, &std::fs::read(facts)?, target)?;
            print(&instance, &summaries)?
        }
    };
    std::io::stdout().write_all(&out)?;
    Ok(())
}
