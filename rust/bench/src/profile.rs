//! Callgrind's file: which function executed how many instructions.

use std::collections::HashMap;

/// What a function costs.
#[derive(Clone, Copy, Default, PartialEq, Debug)]
pub struct Cost {
    pub calls: i64,
    /// Instructions of its own.
    pub own: i64,
    /// And of what it calls.
    pub with_callees: i64,
}

/// The costs by the function's name.
pub struct Profile(HashMap<String, Cost>);

impl Profile {
    /// Reads a file of callgrind's format, version 1, with line numbers as positions and one kind of event.
    pub fn parse(text: &str) -> Result<Profile, String> {
        let mut names: HashMap<&str, &str> = HashMap::new();
        let mut costs: HashMap<String, Cost> = HashMap::new();
        let (mut function, mut callee) = (String::new(), String::new());
        // whether the next line of cost is what a call cost, and not the function itself
        let mut called = false;
        for line in text.lines() {
            if let Some(name) = line.strip_prefix("fn=") {
                function = resolved(name, &mut names);
            } else if let Some(name) = line.strip_prefix("cfn=") {
                callee = resolved(name, &mut names);
            } else if let Some(calls) = line.strip_prefix("calls=") {
                let count = calls.split(' ').next().and_then(|word| word.parse::<i64>().ok());
                costs.entry(callee.clone()).or_default().calls += count.ok_or(format!("calls: {line}"))?;
                called = true;
            } else if line.starts_with(|c: char| c.is_ascii_digit() || "+-*".contains(c)) {
                let number = line.split(' ').nth(1).and_then(|word| word.parse::<i64>().ok());
                let number = number.ok_or(format!("cost: {line}"))?;
                let cost = costs.entry(function.clone()).or_default();
                if !called {
                    cost.own += number;
                    cost.with_callees += number;
                } else if callee != function {
                    // what a function that calls itself does in those calls is counted there
                    cost.with_callees += number;
                }
                called = false;
            }
        }
        match costs.is_empty() {
            true => Err("callgrind wrote no costs".into()),
            false => Ok(Profile(costs)),
        }
    }

    /// What is left of each function's costs when another run's are taken away.
    pub fn less(&self, other: &Profile) -> Profile {
        let less = |(name, cost): (&String, &Cost)| {
            let before = other.0.get(name).copied().unwrap_or_default();
            let cost = Cost {
                calls: cost.calls - before.calls,
                own: cost.own - before.own,
                with_callees: cost.with_callees - before.with_callees,
            };
            (name.clone(), cost)
        };
        Profile(self.0.iter().map(less).collect())
    }

    /// All instructions.
    pub fn total(&self) -> i64 {
        self.0.values().map(|cost| cost.own).sum()
    }

    /// The functions, those with the most instructions of their own first.
    pub fn functions(&self) -> Vec<(&str, Cost)> {
        let mut all: Vec<_> = self.0.iter().map(|(name, cost)| (name.as_str(), *cost)).collect();
        all.sort_by_key(|(name, cost)| (std::cmp::Reverse(cost.own), *name));
        all
    }
}

/// A name is written in full once, as "(3) name", and then as "(3)". A function that calls itself has a second name,
/// "name'2", for the inner calls; they are counted together.
fn resolved<'a>(text: &'a str, names: &mut HashMap<&'a str, &'a str>) -> String {
    let (number, name) = text.split_once(' ').unwrap_or((text, ""));
    if !name.is_empty() {
        names.insert(number, name);
    }
    let name = names.get(number).copied().unwrap_or(text);
    match name.rsplit_once('\'') {
        Some((outer, depth)) if depth.parse::<u32>().is_ok() => outer.to_string(),
        _ => name.to_string(),
    }
}

#[cfg(test)]
mod tests {
    use super::*;

    const FILE: &str = "\
# callgrind format
version: 1
positions: line
events: Ir
summary: 78

ob=(1) program
fl=(1) a.c
fn=(1) build
10 5
+1 3
cfn=(2) add
calls=2 20
* 60

fn=(2)
20 10
cfn=(3) add'2
calls=4 20
+1 40
cfn=(4) round
calls=1 30
* 10

fn=(3)
20 40

fn=(4)
30 10
";

    fn cost(profile: &Profile, name: &str) -> (i64, i64, i64) {
        let cost = profile.0[name];
        (cost.calls, cost.own, cost.with_callees)
    }

    #[test]
    fn costs_are_summed_by_function() {
        let profile = Profile::parse(FILE).unwrap();
        assert_eq!(cost(&profile, "build"), (0, 8, 68));
        assert_eq!(cost(&profile, "add"), (6, 50, 60));
        assert_eq!(cost(&profile, "round"), (1, 10, 10));
        assert_eq!(profile.total(), 68);
        let names: Vec<_> = profile.functions().into_iter().map(|(name, _)| name).collect();
        assert_eq!(names, ["add", "round", "build"]);
    }

    #[test]
    fn a_run_less_another() {
        let profile = Profile::parse(FILE).unwrap();
        let nothing = profile.less(&profile);
        assert_eq!((nothing.total(), cost(&nothing, "add")), (0, (0, 0, 0)));
        assert_eq!(profile.less(&Profile(HashMap::new())).total(), profile.total());
    }

    #[test]
    fn other_texts_are_refused() {
        assert!(Profile::parse("").is_err());
        assert!(Profile::parse("fn=(1) f\n10 many\n").is_err());
    }
}
