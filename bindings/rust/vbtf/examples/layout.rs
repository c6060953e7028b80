//! The size and the layout of a structure, by its name: `layout FILE NAME`, where FILE is a `.BTF` section.

use std::process::ExitCode;
use vbtf::{Kind, Member, Table, Type};

/// The number of bits of a member: of the bit-field, or of its type.
fn bits(table: &Table, member: &Member) -> Result<u64, vbtf::Error> {
    match member.bit_field_size {
        Some(bits) => Ok(u64::from(bits)),
        None => Ok(8 * table.type_size(member.type_id)?),
    }
}

/// Prints the members of a structure: the first bit and the length of each.
fn print_members(table: &Table, structure: Type<'_>) -> Result<(), vbtf::Error> {
    for member in structure.members().into_iter().flatten() {
        let name = table.string_at(member.name_offset)?;
        println!("    {name}: from bit {}, {} bits", member.bit_offset, bits(table, &member)?);
    }
    Ok(())
}

fn print_struct(file: &str, name: &str) -> Result<(), Box<dyn std::error::Error>> {
    let table = Table::parse_by_magic(&std::fs::read(file)?)?;
    let id = table.id_by_type_name_kind(name, Kind::Struct)?;
    println!("struct {name}: {} bytes", table.type_size(id)?);
    Ok(print_members(&table, table.type_by_id(id)?)?)
}

fn main() -> ExitCode {
    let words: Vec<String> = std::env::args().skip(1).collect();
    let [file, name] = words.as_slice() else {
        eprintln!("usage: layout FILE NAME");
        return ExitCode::from(2);
    };
    match print_struct(file, name) {
        Ok(()) => ExitCode::SUCCESS,
        Err(error) => {
            eprintln!("layout: {error}");
            ExitCode::FAILURE
        }
    }
}
