//! A chart file's bytes to a chart, or to the first refusal in document 01's order.

use crate::chart::{
    Chart, Edge, Location, LocationId, Name, Operand, Operation, Relation, Variable, MAX_EDGES,
    MAX_LOCATIONS, MAX_NAME, MAX_VARIABLES, NUMBERS,
};
use crate::refusal::{Reason, Refusal};
use crate::text;

pub const MAX_FILE: usize = 32_768;

pub fn read(file: &[u8]) -> Result<Chart, Refusal> {
    check_bytes(file)?;
    let mut chart = Chart { variables: Vec::new(), locations: Vec::new(), edges: Vec::new() };
    let mut fields = Vec::new();
    for (line, number) in text::lines(file).zip(1..) {
        fields.clear();
        fields.extend(text::fields(line));
        read_line(&mut chart, &fields).map_err(|reason| Refusal::at(number, reason))?;
    }
    if chart.locations.is_empty() {
        return Err(Reason::RecordCount.into());
    }
    Ok(chart)
}

/// 1, 2 and 3 are judged over the whole file before any line is looked into.
fn check_bytes(file: &[u8]) -> Result<(), Refusal> {
    let line_at = |place: usize| text::count_line_feeds(&file[..place]) as u32 + 1;
    if file.len() > MAX_FILE {
        return Err(Reason::TooLong.into());
    }
    if let Some(place) = file.iter().position(|&byte| !text::is_allowed(byte)) {
        return Err(Refusal::at(line_at(place), Reason::BadByte));
    }
    if file.last().is_some_and(|&byte| byte != text::LINE_FEED) {
        return Err(Refusal::at(line_at(file.len()), Reason::MissingLineEnd));
    }
    Ok(())
}

/// One line: 4, 8 and 5 here, the fields and 9 by the kind of line.
fn read_line(chart: &mut Chart, fields: &[&[u8]]) -> Result<(), Reason> {
    match fields[0] {
        b"V" => {
            check(chart.locations.is_empty() && chart.edges.is_empty(), Reason::LineKind)?;
            check(chart.variables.len() < MAX_VARIABLES, Reason::RecordCount)?;
            let variable = read_variable(fields)?;
            let is_new = chart.variables.iter().all(|other| other.name != variable.name);
            check(is_new, Reason::RepeatedName)?;
            chart.variables.push(variable);
        }
        b"L" => {
            check(chart.edges.is_empty(), Reason::LineKind)?;
            check(chart.locations.len() < MAX_LOCATIONS, Reason::RecordCount)?;
            let location = read_location(fields)?;
            let is_new = chart.locations.iter().all(|other| other.name != location.name);
            check(is_new, Reason::RepeatedName)?;
            chart.locations.push(location);
        }
        b"E" => {
            check(chart.edges.len() < MAX_EDGES, Reason::RecordCount)?;
            let edge = read_edge(chart, fields)?;
            chart.edges.push(edge);
        }
        _ => return Err(Reason::LineKind),
    }
    Ok(())
}

fn read_variable(fields: &[&[u8]]) -> Result<Variable, Reason> {
    check(fields.len() == 5 && none_empty(fields), Reason::FieldCount)?;
    let name = read_name(fields[1])?;
    let low = read_number(fields[2])?;
    let high = read_number(fields[3])?;
    check(low <= high, Reason::OutOfRange)?;
    let mut variable = Variable { name, low, high, init: None };
    if fields[4] != b"*" {
        let init = read_number(fields[4])?;
        check(variable.contains(init), Reason::OutOfRange)?;
        variable.init = Some(init);
    }
    Ok(variable)
}

fn read_location(fields: &[&[u8]]) -> Result<Location, Reason> {
    check(fields.len() == 3 && none_empty(fields), Reason::FieldCount)?;
    let name = read_name(fields[1])?;
    let is_error = match fields[2] {
        b"o" => false,
        b"e" => true,
        _ => return Err(Reason::Malformed),
    };
    Ok(Location { name, is_error })
}

/// The operation and its field count are judged before from and to.
fn read_edge(chart: &Chart, fields: &[&[u8]]) -> Result<Edge, Reason> {
    check(fields.len() >= 4 && none_empty(fields), Reason::FieldCount)?;
    let count = match fields[3] {
        b"skip" => 4,
        b"set" => 6,
        b"add" | b"sub" | b"in" | b"if" => 7,
        _ => return Err(Reason::Malformed),
    };
    check(fields.len() == count, Reason::FieldCount)?;
    let from = read_location_number(chart, fields[1])?;
    let to = read_location_number(chart, fields[2])?;
    let operation = read_operation(chart, fields)?;
    Ok(Edge { from, to, operation })
}

fn read_operation(chart: &Chart, fields: &[&[u8]]) -> Result<Operation, Reason> {
    if fields[3] == b"skip" {
        return Ok(Operation::Skip);
    }
    let target = read_variable_number(chart, fields[4])?;
    Ok(match fields[3] {
        b"set" => Operation::Set { target, value: read_operand(chart, fields[5])? },
        b"in" => {
            let low = read_value_of(&chart.variables[target], fields[5])?;
            let high = read_value_of(&chart.variables[target], fields[6])?;
            check(low <= high, Reason::OutOfRange)?;
            Operation::In { target, low, high }
        }
        b"if" => {
            let relation = read_relation(fields[5])?;
            Operation::If { target, relation, right: read_operand(chart, fields[6])? }
        }
        word => {
            let left = read_operand(chart, fields[5])?;
            let right = read_operand(chart, fields[6])?;
            match word {
                b"add" => Operation::Add { target, left, right },
                _ => Operation::Sub { target, left, right },
            }
        }
    })
}

fn read_relation(field: &[u8]) -> Result<Relation, Reason> {
    Relation::ALL
        .into_iter()
        .find(|relation| relation.word().as_bytes() == field)
        .ok_or(Reason::Malformed)
}

fn read_name(field: &[u8]) -> Result<Name, Reason> {
    check(is_name(field), Reason::Malformed)?;
    Name::new(field).ok_or(Reason::Malformed)
}

pub fn is_name(field: &[u8]) -> bool {
    (1..=MAX_NAME).contains(&field.len())
        && field.iter().all(|&byte| byte.is_ascii_alphanumeric() || byte == b'-')
}

fn read_number(field: &[u8]) -> Result<i32, Reason> {
    let number = text::number(field).ok_or(Reason::Malformed)?;
    i32::try_from(number).ok().filter(|number| NUMBERS.contains(number)).ok_or(Reason::OutOfRange)
}

fn read_value_of(variable: &Variable, field: &[u8]) -> Result<i32, Reason> {
    let value = read_number(field)?;
    check(variable.contains(value), Reason::OutOfRange)?;
    Ok(value)
}

/// A well-formed number of any size is at worst "no such location".
fn read_location_number(chart: &Chart, field: &[u8]) -> Result<LocationId, Reason> {
    read_index(field, chart.locations.len()).map(LocationId)
}

fn read_variable_number(chart: &Chart, field: &[u8]) -> Result<usize, Reason> {
    match field {
        [b'$', b'-', ..] => Err(Reason::Malformed),
        [b'$', index @ ..] => read_index(index, chart.variables.len()),
        _ => Err(Reason::Malformed),
    }
}

fn read_index(field: &[u8], count: usize) -> Result<usize, Reason> {
    let number = text::number(field).ok_or(Reason::Malformed)?;
    usize::try_from(number).ok().filter(|&index| index < count).ok_or(Reason::NoSuch)
}

fn read_operand(chart: &Chart, field: &[u8]) -> Result<Operand, Reason> {
    if field.starts_with(b"$") {
        read_variable_number(chart, field).map(Operand::Variable)
    } else {
        read_number(field).map(Operand::Number)
    }
}

fn none_empty(fields: &[&[u8]]) -> bool {
    fields.iter().all(|field| !field.is_empty())
}

fn check(holds: bool, otherwise: Reason) -> Result<(), Reason> {
    if holds {
        Ok(())
    } else {
        Err(otherwise)
    }
}
