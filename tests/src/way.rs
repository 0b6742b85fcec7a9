//! Whether a printed path is a way through the chart to the alarm, and a printed run one of the chart, judged by the
//! chart and the texts alone.

use crate::chart::{Chart, EdgeId, Location, LocationId};
use crate::concrete::{for_each_move, overruns, State};
use crate::domain::{transfer, Move, TOP};

/// One line of a path.
struct Step {
    /// The edge that brought it, or 0.
    edge: usize,
    slot: usize,
    location: LocationId,
    /// Its location and values.
    state: Vec<i32>,
    is_waiting: bool,
}

/// Fails with what is wrong in a path beside the listing of the same analysis, which has raised an alarm.
pub fn check_way(chart: &Chart, listing: &[u8], path: &[u8]) -> Result<(), String> {
    let (listing, path) = (lines(listing)?, lines(path)?);
    let [header, lines @ ..] = &path[..] else {
        return Err("no header".to_string());
    };
    let (merge, alarm_edge) = match (&fields(header)[..], &fields(listing[0])[..]) {
        (&["path", merge, edge], &["walk", its_merge, _, _, "alarm", _, _, its_edge])
            if (merge, edge) == (its_merge, its_edge) =>
        {
            (merge, edge)
        }
        _ => return Err(format!("{header} beside {}", listing[0])),
    };
    let alarm_edge: usize = number(alarm_edge)?;

    let steps: Vec<Step> = lines.iter().map(|line| step(chart, line)).collect::<Result<_, _>>()?;
    for (step, line) in steps.iter().zip(lines) {
        let slot_line = line.split_once('\t').map(|(_, slot_line)| slot_line);
        if listing.get(step.slot + 1).copied() != slot_line {
            return Err(format!("{line} is not in the listing"));
        }
    }
    let (Some(first), Some(last)) = (steps.first(), steps.last()) else {
        return Err("no slot".to_string());
    };
    if (first.edge, first.slot) != (0, 0) {
        return Err("it does not begin at slot 0".to_string());
    }
    for pair in steps.windows(2) {
        let (before, step) = (&pair[0], &pair[1]);
        let wrong = |what: &str| Err(format!("slot {}: {what}", step.slot));
        if step.slot <= before.slot {
            return wrong("its parent does not stand below it");
        }
        if !(1..=chart.edges.len()).contains(&step.edge) {
            return wrong("no edge brought it");
        }
        let edge = chart.edge(EdgeId(step.edge));
        if (edge.from, edge.to) != (before.location, step.location) {
            return wrong("its edge does not join the locations");
        }
        // Kept apart, a slot is what the edge has made of its parent; joined, either may have become wider.
        let mut successor = vec![0; chart.width()];
        let moved = transfer(chart, edge, &before.state, &mut successor);
        if merge == "sep" && (moved != Move::Successor || successor != step.state) {
            return wrong("its edge does not make it of its parent");
        }
    }
    if !last.is_waiting {
        return Err("the last slot does not wait".to_string());
    }
    if alarm_edge == 0 {
        let is_at_once = steps.len() == 1 && chart.location(Chart::START).is_error;
        return is_at_once.then_some(()).ok_or("no edge raised the alarm".to_string());
    }
    let edge = chart.edge(EdgeId(alarm_edge));
    let moved = transfer(chart, edge, &last.state, &mut vec![0; chart.width()]);
    let is_raised = match moved {
        Move::Overrun => true,
        Move::Successor => chart.location(edge.to).is_error,
        Move::Blocked => false,
    };
    (edge.from == last.location && is_raised)
        .then_some(())
        .ok_or("the alarm edge does not lead from the last slot to an alarm".to_string())
}

/// Fails with what is wrong in the run that a search shows; else how many moves it has.
pub fn check_run(chart: &Chart, text: &[u8]) -> Result<usize, String> {
    let lines = lines(text)?;
    let moves = match fields(lines[0])[..] {
        ["run", moves] => number(moves)?,
        _ => return Err(format!("{} is no header", lines[0])),
    };
    if lines.len() != moves + 2 {
        return Err(format!("{} lines for {moves} moves", lines.len()));
    }
    let mut before: Option<State> = None;
    for (place, line) in lines[1..].iter().enumerate() {
        let wrong = |what: &str| Err(format!("{line}: {what}"));
        let fields = fields(line);
        let edge: usize = number(fields[0])?;
        let Some(state) = &before else {
            let state = concrete_state(chart, &fields[1..])?;
            let is_initial = (chart.variables.iter().zip(&state[1..])).all(|(variable, value)| {
                variable.init.map_or(variable.contains(*value), |init| init == *value)
            });
            if edge != 0 || state[0] != Chart::START.0 as i32 || !is_initial {
                return wrong("it does not begin a run");
            }
            before = Some(state);
            continue;
        };
        if !(1..=chart.edges.len()).contains(&edge) {
            return wrong("there is no such edge");
        }
        let edge = chart.edge(EdgeId(edge));
        if edge.from.0 as i32 != state[0] || chart.location(edge.from).is_error {
            return wrong("its edge does not leave the state before");
        }
        if fields.len() == 1 && place == moves {
            return match overruns(chart, edge, state) {
                true => Ok(moves),
                false => wrong("it does not overrun"),
            };
        }
        let after = concrete_state(chart, &fields[1..])?;
        let mut is_made = false;
        for_each_move(chart, edge, state, |made| is_made |= made == after);
        if !is_made {
            return wrong("its edge does not make it of the state before");
        }
        before = Some(after);
    }
    let is_error =
        before.is_some_and(|state| chart.location(LocationId(state[0] as usize)).is_error);
    is_error.then_some(moves).ok_or("it does not end at an error location".to_string())
}

/// A location's name and the values.
fn concrete_state(chart: &Chart, fields: &[&str]) -> Result<State, String> {
    let [name, values @ ..] = fields else {
        return Err("no location".to_string());
    };
    if values.len() != chart.variables.len() {
        return Err(format!("{} values", values.len()));
    }
    let is_named = |location: &Location| location.name.as_bytes() == name.as_bytes();
    let location =
        chart.locations.iter().position(is_named).ok_or(format!("no location {name}"))?;
    let values: Vec<i32> = values.iter().map(|value| number(value)).collect::<Result<_, _>>()?;
    Ok([&[location as i32], &values[..]].concat())
}

/// What an analysis that knows every value says of the runs of at most so many moves.
#[derive(Clone, Copy, Debug, PartialEq, Eq, PartialOrd, Ord)]
pub enum Exact {
    Safe,
    /// A run is shown that comes to the alarm.
    Within,
    /// The path to the alarm has more moves.
    Beyond,
    /// Out of room, or unfinished.
    Nothing,
}

/// Fails where a search of at most `bound` moves does not agree with the listing and the path of an analysis, with
/// merge and stop sep, of a chart without `*` and without an input of several values: each of its states is concrete.
pub fn check_exact(
    listing: &[u8],
    path: &[u8],
    search: &[u8],
    bound: usize,
) -> Result<Exact, String> {
    let (listing, search) = (lines(listing)?, lines(search)?);
    let none = format!("none\t{bound}");
    let (order, alarm_edge) = match fields(listing[0])[..] {
        ["walk", "sep", "sep", _, "safe", ..] if search == [&none[..]] => return Ok(Exact::Safe),
        ["walk", "sep", "sep", order, "alarm", _, _, edge] => (order, edge),
        ["walk", "sep", "sep", _, "room" | "open", ..] => return Ok(Exact::Nothing),
        _ => return Err(format!("{} beside {}", listing[0], search[0])),
    };
    // A path's lines but for the slot and whether it waits.
    let path = lines(path)?;
    let states = path[1..].iter().map(|line| {
        let fields = fields(line);
        [&fields[..1], &fields[2..fields.len() - 1]].concat().join("\t")
    });
    let mut steps: Vec<String> = states.collect();
    let moves = steps.len() - usize::from(alarm_edge == "0");
    if moves > bound {
        // Oldest first, no slot is followed before those of fewer moves.
        let is_none = search == [&none[..]];
        return match order == "new" || is_none {
            true => Ok(Exact::Beyond),
            false => Err(format!("{} though the alarm has {moves} moves", search[0])),
        };
    }
    let found: usize = match fields(search[0])[..] {
        ["run", found] => number(found)?,
        _ => return Err(format!("{} though the alarm has {moves} moves", search[0])),
    };
    if order == "new" {
        return match found <= moves {
            true => Ok(Exact::Within),
            false => Err(format!("{found} moves, though the alarm has {moves}")),
        };
    }
    // Of the last state the path has the edge alone.
    if alarm_edge != "0" {
        steps.push(alarm_edge.to_string());
    }
    let is_alike = |(line, step): (&&str, &String)| match line.strip_prefix(&step[..]) {
        Some(rest) => rest.is_empty() || (*step == alarm_edge && rest.starts_with('\t')),
        None => false,
    };
    let are_alike = search.len() == steps.len() + 1 && search[1..].iter().zip(&steps).all(is_alike);
    match found == moves && are_alike {
        true => Ok(Exact::Within),
        false => Err(format!("{search:?} beside {path:?}")),
    }
}

fn lines(text: &[u8]) -> Result<Vec<&str>, String> {
    let text = std::str::from_utf8(text).map_err(|error| error.to_string())?;
    let text = text.strip_suffix('\n').ok_or("the last line is not ended")?;
    Ok(text.split('\n').collect())
}

fn fields(line: &str) -> Vec<&str> {
    line.split('\t').collect()
}

fn number<N: std::str::FromStr>(field: &str) -> Result<N, String> {
    field.parse().map_err(|_| format!("{field} is no number"))
}

fn step(chart: &Chart, line: &str) -> Result<Step, String> {
    let fields = fields(line);
    let [edge, slot, name, values @ .., waiting] = &fields[..] else {
        return Err(format!("{line} has too few fields"));
    };
    if values.len() != chart.variables.len() || !["w", "-"].contains(waiting) {
        return Err(format!("{line} is no line of a path"));
    }
    let is_named = |location: &Location| location.name.as_bytes() == name.as_bytes();
    let location =
        chart.locations.iter().position(is_named).ok_or(format!("no location {name}"))?;
    let value = |field: &&str| if *field == "*" { Ok(TOP) } else { number(field) };
    let values: Vec<i32> = values.iter().map(value).collect::<Result<_, _>>()?;
    Ok(Step {
        edge: number(edge)?,
        slot: number(slot)?,
        location: LocationId(location),
        state: [&[location as i32], &values[..]].concat(),
        is_waiting: *waiting == "w",
    })
}
