//! A chart back to its file, the one spelling that reads to it.

use std::io::Write;

use crate::chart::{Chart, Operand, Operation};

pub fn render(chart: &Chart) -> Vec<u8> {
    let mut file = Vec::new();
    write_chart(&mut file, chart).expect("a vector takes every write");
    file
}

fn write_chart(file: &mut Vec<u8>, chart: &Chart) -> std::io::Result<()> {
    for variable in &chart.variables {
        file.write_all(b"V\t")?;
        file.write_all(variable.name.as_bytes())?;
        write!(file, "\t{}\t{}\t", variable.low, variable.high)?;
        match variable.init {
            Some(init) => writeln!(file, "{init}")?,
            None => file.write_all(b"*\n")?,
        }
    }
    for location in &chart.locations {
        file.write_all(b"L\t")?;
        file.write_all(location.name.as_bytes())?;
        file.write_all(if location.is_error { b"\te\n" } else { b"\to\n" })?;
    }
    for edge in &chart.edges {
        write!(file, "E\t{}\t{}\t", edge.from.0, edge.to.0)?;
        write_operation(file, &edge.operation)?;
    }
    Ok(())
}

fn write_operation(file: &mut Vec<u8>, operation: &Operation) -> std::io::Result<()> {
    match *operation {
        Operation::Skip => writeln!(file, "skip"),
        Operation::Set { target, value } => writeln!(file, "set\t${target}\t{value}"),
        Operation::Add { target, left, right } => writeln!(file, "add\t${target}\t{left}\t{right}"),
        Operation::Sub { target, left, right } => writeln!(file, "sub\t${target}\t{left}\t{right}"),
        Operation::In { target, low, high } => writeln!(file, "in\t${target}\t{low}\t{high}"),
        Operation::If { target, relation, right } => {
            writeln!(file, "if\t${target}\t{}\t{right}", relation.word())
        }
    }
}

impl std::fmt::Display for Operand {
    fn fmt(&self, formatter: &mut std::fmt::Formatter<'_>) -> std::fmt::Result {
        match self {
            Operand::Number(number) => write!(formatter, "{number}"),
            Operand::Variable(variable) => write!(formatter, "${variable}"),
        }
    }
}
