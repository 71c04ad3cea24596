// SPDX-License-Identifier: Apache-2.0
//! A page of HTML that shows sessions, and needs nothing beside it. Each row is written as it comes, so that a long session takes no
//! more memory; what is known at the end is written there, and page.css shows it above the rows.
use std::collections::BTreeMap;
use std::fs::File;
use std::io::{self, BufWriter, Write};
use std::path::{Path, PathBuf};

use super::about;
use super::colours::Colours;
use super::event::{Event, What};
use super::finding::Finding;
use super::layout::name_of;
use super::markup::escaped;
use super::page_row::row_of;
use super::replies::Replies;
use super::summary::Summary;

const STYLE: &str = include_str!("page.css");
const SCRIPT: &str = include_str!("page.js");
/// The SHA-256 of page.js, by which a browser runs that script and no other.
const SCRIPT_SUM: &str = "sha256-bHnNq4AMjjnBOnTq7L0dTCxEkide6ysek4hLJQD6FZE=";

/// How many rows a section has. A browser does not draw the sections that are not in sight.
const ROWS_OF_A_SECTION: usize = 100;
/// How many names of requests the filter offers. There are 44 requests, and a peer may ask for others by any number.
const MOST_NAMES: usize = 200;

pub(super) struct Page<W: Write> {
    path: PathBuf,
    title: String,
    file: BufWriter<W>,
    shows_bytes: bool,
    rows: usize,
    colours: Colours,
    replies: Replies,
    /// How many messages have each name.
    names: BTreeMap<String, usize>,
}

impl Page<File> {
    /// Begins a page of this title.
    pub(super) fn create(path: &Path, title: &str, shows_bytes: bool) -> io::Result<Page<File>> {
        Page::begin(path, File::create(path).map_err(about(path))?, title, shows_bytes)
    }
}

impl<W: Write> Page<W> {
    fn begin(path: &Path, file: W, title: &str, shows_bytes: bool) -> io::Result<Page<W>> {
        let mut page = Page {
            path: path.to_path_buf(),
            title: title.to_string(),
            file: BufWriter::new(file),
            shows_bytes,
            rows: 0,
            colours: Colours::default(),
            replies: Replies::default(),
            names: BTreeMap::new(),
        };
        page.write(&head_of(title))?;
        Ok(page)
    }

    fn write(&mut self, text: &str) -> io::Result<()> {
        self.file.write_all(text.as_bytes()).map_err(about(&self.path))
    }

    /// Writes the row of an event, and what is found of it.
    pub(super) fn put(&mut self, event: &Event, findings: &[Finding]) -> io::Result<()> {
        if self.rows != 0 && self.rows % ROWS_OF_A_SECTION == 0 {
            self.write("</section><section>\n")?;
        }
        self.rows += 1;
        if let What::Message(way, message) = &event.what {
            self.count(name_of(*way, message));
        }
        let awaited = self.replies.see(event);
        let row = row_of(event, findings, awaited, self.shows_bytes, &mut self.colours);
        self.write(&row)
    }

    fn count(&mut self, name: String) {
        if self.names.len() < MOST_NAMES || self.names.contains_key(&name) {
            *self.names.entry(name).or_default() += 1;
        }
    }

    /// Writes what is known at the end.
    pub(super) fn finish(mut self, summary: &Summary) -> io::Result<()> {
        let foot = self.foot_of(summary);
        self.write(&foot)?;
        self.file.flush().map_err(about(&self.path))
    }

    fn foot_of(&self, summary: &Summary) -> String {
        let option = |(name, count): (&String, &usize)| {
            let name = escaped(name);
            format!("<option value=\"{name}\">{name}: {count}</option>")
        };
        let options: String = self.names.iter().map(option).collect();
        let class = if summary.complaints == 0 { "verdict" } else { "verdict wrong" };
        let lines: String = summary.lines().iter().map(|line| format!("<li>{}</li>", escaped(line))).collect();
        format!(
            "</section></main>\n<datalist id=\"requests\">{options}</datalist>\n<header class=\"top\"><h1>{}</h1>\n\
             <p class=\"{class}\">{}</p>\n<ul>{lines}</ul>\n{ARROWS}\n{}</header>\n</body></html>\n",
            escaped(&self.title),
            escaped(&summary.verdict()),
            self.legend_of_descriptors()
        )
    }

    fn legend_of_descriptors(&self) -> String {
        let legend = self.colours.legend();
        if legend.is_empty() {
            return String::new();
        }
        let button =
            |(class, name): &(String, String)| format!("<button type=\"button\" class=\"fd {class}\">{}</button>", escaped(name));
        let buttons: String = legend.iter().map(button).collect();
        format!("<p class=\"legend\"><b>Descriptors</b>{buttons}</p>\n")
    }
}

/// What the arrows and the bars mean.
const ARROWS: &str =
    "<p class=\"legend\"><b>Arrows</b><span><i class=\"key f\"></i>frontend</span><span><i class=\"key b\"></i>backend</span>\
<span><i class=\"key reply\"></i>reply</span><span><i class=\"key channel\"></i>backend channel</span>\
<b>Bars</b><span>how long a reply was awaited: each fifth is ten times longer, up to 10 s</span></p>";

/// What stands above the rows: the style, the script, and the controls.
fn head_of(title: &str) -> String {
    format!(
        "<!DOCTYPE html>\n<html lang=\"en\"><head><meta charset=\"utf-8\"/>\n\
         <meta http-equiv=\"Content-Security-Policy\" content=\"default-src 'none'; style-src 'unsafe-inline'; script-src '{SCRIPT_SUM}'\"/>\n\
         <meta name=\"viewport\" content=\"width=device-width\"/><title>{}</title>\n\
         <style>\n{STYLE}</style>\n<script>{SCRIPT}</script></head><body>\n{CONTROLS}\n<main><section>\n",
        escaped(title)
    )
}

/// The filter, and what each column has.
const CONTROLS: &str = "<div class=\"bar\"><div class=\"tools\">\
<label>Show <input type=\"search\" id=\"search\" list=\"requests\" placeholder=\"a request, a field, a descriptor\"/></label>\
<label>of session <input type=\"number\" id=\"session\" min=\"1\" placeholder=\"all\"/></label>\
<label><input type=\"checkbox\" id=\"findings\"/> with findings only</label>\
<button type=\"button\" id=\"next\">Next finding</button><span id=\"shown\"></span></div>\n\
<div class=\"heads\"><span>seconds</span><span>session</span><span class=\"lane\"><span class=\"f\">Frontend</span><span class=\"b\">Backend</span></span>\
<span>awaited</span><span class=\"text\">descriptors and fields</span></div></div>";
