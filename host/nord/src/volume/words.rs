//! A page's holder in words, for tooltips and answers.

use super::{Holder, Kind, Volume};

impl Volume {
    /// Who holds a page, in words: "DOCK/READS:DATA data page 0".
    pub fn words(&self, holder: &Holder) -> String {
        let position = holder.position;
        match holder.kind {
            Kind::Free => "free".to_string(),
            Kind::Master => "master block".to_string(),
            Kind::BitFile if proved::bit_pages(self.pages as usize) > 1 => format!("bit file, page {position}"),
            Kind::BitFile => "bit file".to_string(),
            Kind::UserIndex => "user file, index block".to_string(),
            Kind::UserPage => format!("user file, page {position}"),
            Kind::ObjectSubindex => "object file, subindex block".to_string(),
            Kind::ObjectIndex => format!("object file, index block {position}"),
            Kind::ObjectPage => format!("object file, page {position}"),
            Kind::FileSubindex => format!("{} subindex block", self.path(holder)),
            Kind::FileIndex => format!("{} index block {position}", self.path(holder)),
            Kind::FileData => format!("{} data page {position}", self.path(holder)),
        }
    }

    /// The user and the file that hold a page: "DOCK/READS:DATA".
    fn path(&self, holder: &Holder) -> String {
        let found = self.user(holder.user).and_then(|user| Some((user, user.file(holder.file)?)));
        match found {
            Some((user, file)) => format!("{}/{}", user.name, file.full_name()),
            None => format!("user {} file {}", holder.user, holder.file),
        }
    }
}
