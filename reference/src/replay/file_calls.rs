//! The tool's records about files and rules.

use super::{answered, Tool, BAD, FULL};
use crate::text::hex;
use crate::{files, rules};

const MOST_BYTES: usize = 1_024;

impl Tool {
    pub(super) fn write_file(&mut self, op: u32, a: u32) -> String {
        match op {
            50 => self.file.clear(),
            _ if a > 255 => return BAD.to_string(),
            _ if self.file.len() == MOST_BYTES => return FULL.to_string(),
            _ => self.file.push(a as u8),
        }
        String::new()
    }

    pub(super) fn read_file(&mut self, op: u32, a: u32, b: u64) -> String {
        let (file, index) = (&self.file, a as usize);
        let nothing = || "nothing".to_string();
        match op {
            52 => {
                let log = files::read_log(file, files::MOST_ITEMS);
                answered(log.map(|log| format!("log {} {}", log.items.len(), log.version)))
            }
            53 => {
                let item = files::log_item(file, index);
                item.map_or_else(nothing, |(reading, weight)| format!("item {reading} {weight}"))
            }
            54 => {
                let proof = files::read_proof(file, None);
                answered(proof.map(|p| format!("proof {} {}", p.messages.len(), p.total)))
            }
            55 => format!("part {}", hex(files::proof_part(file, index))),
            56 => {
                let matrix = files::read_matrix(file);
                answered(matrix.map(|m| format!("matrix {} {}", m.rounds, m.entries.len())))
            }
            57 => {
                let entry = files::matrix_entry(file, index);
                entry.map_or_else(nothing, |e| format!("entry {} {} {}", e.row, e.column, e.value))
            }
            58 => {
                let product = rules::product(file, &self.scratch, self.lent.0);
                answered(product.map(|rows| {
                    self.f[..rows.len()].copy_from_slice(&rows);
                    "product"
                }))
            }
            _ => {
                let claim = rules::claim(&self.scratch, a as u64, b);
                answered(claim.map(|claim| format!("claim {claim}")))
            }
        }
    }
}
