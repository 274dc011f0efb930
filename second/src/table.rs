//! Tables for other tools: a file's values, or what its days add up to, as lines of CSV.

use crate::check::read_file;
use crate::fields::{day_after, year_month_day};
use crate::records::Record;
use crate::refusal::Refusal;
use crate::walk::Day;
use crate::write::{note_fields, value_field};

const MINUTES_IN_DAY: usize = 1440;

/// A line for each interval of each day, or for each 250.
pub fn csv(file: &[u8]) -> Result<Vec<u8>, Refusal> {
    let content = read_file(file)?;
    let mut table = b"nmi,suffix,unit,start,end,value,quality,reason,description\n".to_vec();
    if content.version == 12 {
        for day in &content.days {
            table.extend(interval_lines(content.channels[day.channel].head(), day));
        }
    } else {
        for channel in &content.channels {
            table.extend(accumulation_line(channel.head()));
        }
    }
    Ok(table)
}

/// A line for each day. A NEM13 file has none.
pub fn daily(file: &[u8]) -> Result<Vec<u8>, Refusal> {
    let content = read_file(file)?;
    let mut table = b"nmi,suffix,unit,date,sum\n".to_vec();
    for day in &content.days {
        table.extend(day_line(content.channels[day.channel].head(), day));
    }
    Ok(table)
}

// --- Lines ---

fn interval_lines(channel: &Record, day: &Day) -> Vec<u8> {
    let length = MINUTES_IN_DAY / day.values.len();
    let mut lines = Vec::new();
    for (index, (value, note)) in day.values.iter().zip(&day.notes).enumerate() {
        let [nmi, suffix, unit] = names(channel, 8);
        let [start, end] = [index, index + 1].map(|passed| minute_of_day(day.date, passed * length));
        let [quality, reason, description] = note_fields(note);
        lines.extend(line(&[nmi, suffix, unit, start, end, value_field(*value), quality, reason, description]));
    }
    lines
}

fn accumulation_line(accumulation: &Record) -> Vec<u8> {
    let [nmi, suffix, unit] = names(accumulation, 20);
    let [previous, current] = [10, 15].map(|field| second_of_day(accumulation.decimal(field)));
    let quantity = value_field(accumulation.value(19));
    let [quality, reason, description] = [16, 17, 18].map(|field| accumulation.bytes(field).to_vec());
    line(&[nmi, suffix, unit, previous, current, quantity, quality, reason, description])
}

fn day_line(channel: &Record, day: &Day) -> Vec<u8> {
    let [nmi, suffix, unit] = names(channel, 8);
    line(&[nmi, suffix, unit, date_word(day.date).into_bytes(), value_field(day.sum())])
}

/// NMI, suffix and unit as they stand in a 200 or a 250, whose unit is the field with this number.
fn names(record: &Record, unit: usize) -> [Vec<u8>; 3] {
    [2, 5, unit].map(|field| record.bytes(field).to_vec())
}

fn line(fields: &[Vec<u8>]) -> Vec<u8> {
    let fields: Vec<Vec<u8>> = fields.iter().map(|field| quoted(field)).collect();
    let mut line = fields.join(&b',');
    line.push(b'\n');
    line
}

/// A field that has a `"` stands between two, its own being written twice. All others stand as they are.
fn quoted(field: &[u8]) -> Vec<u8> {
    if !field.contains(&b'"') {
        return field.to_vec();
    }
    let parts: Vec<&[u8]> = field.split(|byte| *byte == b'"').collect();
    [b"\"", &parts.join(&b"\"\""[..])[..], b"\""].concat()
}

// --- Dates and times ---

fn date_word(date: u32) -> String {
    let (year, month, day) = year_month_day(date);
    format!("{year:04}-{month:02}-{day:02}")
}

/// When so many minutes of a day have passed. A day ends at 00:00 of the day after it.
fn minute_of_day(date: u32, minutes: usize) -> Vec<u8> {
    let (date, minutes) = if minutes == MINUTES_IN_DAY { (day_after(date), 0) } else { (date, minutes) };
    format!("{}T{:02}:{:02}", date_word(date), minutes / 60, minutes % 60).into_bytes()
}

/// The time that 14 digits write.
fn second_of_day(time: u64) -> Vec<u8> {
    let (date, clock) = ((time / 1_000_000) as u32, time % 1_000_000);
    format!("{}T{:02}:{:02}:{:02}", date_word(date), clock / 10_000, clock / 100 % 100, clock % 100).into_bytes()
}

#[cfg(test)]
mod tests {
    use super::*;

    const HEADING: &str = "nmi,suffix,unit,start,end,value,quality,reason,description\n";
    const DAILY_HEADING: &str = "nmi,suffix,unit,date,sum\n";

    const HEADER_12: &str = "100,NEM12,200301011534,MDP1,Ret1\r\n";
    const HEADER_13: &str = "100,NEM13,200301011534,MDP1,Ret1\r\n";
    const CHANNEL_30: &str = "200,VABD000163,E1Q1,1,E1,N1,METSER123,kWh,30,20040120\r\n";

    fn nem12(records: &str) -> String {
        format!("{HEADER_12}{records}900\r\n")
    }

    fn nem13(records: &str) -> String {
        format!("{HEADER_13}{records}900\r\n")
    }

    /// A 300 with n values, all of them this one, and these fields for quality, reason and description.
    fn day(date: &str, n: usize, value: &str, note: &str) -> String {
        format!("300,{date},{}{note},20030502153445,\r\n", format!("{value},").repeat(n))
    }

    fn text(table: Result<Vec<u8>, Refusal>) -> String {
        String::from_utf8(table.expect("a file to be accepted")).expect("a table of text")
    }

    /// The lines of a file's table behind this heading.
    fn lines(table: Result<Vec<u8>, Refusal>, heading: &str) -> Vec<String> {
        let table = text(table);
        let rows = table.strip_prefix(heading).expect("the heading");
        assert!(rows.is_empty() || rows.ends_with('\n'), "{rows}");
        rows.split_terminator('\n').map(String::from).collect()
    }

    fn csv_lines(file: &str) -> Vec<String> {
        lines(csv(file.as_bytes()), HEADING)
    }

    fn daily_lines(file: &str) -> Vec<String> {
        lines(daily(file.as_bytes()), DAILY_HEADING)
    }

    // --- Intervals ---

    const V_DAY: &str = "\
200,vaBD000163,E1Q1,1,e1,N1,METSER123,KwH,30,20040120\r
300,20031219,0,17.461,1.5,003.40,0.5,0.0000,1.0500,9999999.9999,0000010,20.0,1,1,1,1,1,1,1,1,1,1,1,1,1,1,1,1,1,1,1,1,\
1,1,1,1,1,1,1,1,1,1,1,1,1,1,1,1,1,1,V,,,20031220153445,20031221010203\r
400,1,2,A,,\r
400,3,3,E02,,\r
400,4,5,F14,79,No access\r
400,6,6,S99,0,\"Cable\" cut\r
400,7,7,N,,Why?\r
400,8,48,A,999,\r
500,S,RETNSRVCEORD1,20031220000000,1123.4\r
";

    const V_DAY_AS_CSV: &str = r#"nmi,suffix,unit,start,end,value,quality,reason,description
vaBD000163,e1,KwH,2003-12-19T00:00,2003-12-19T00:30,0,A,,
vaBD000163,e1,KwH,2003-12-19T00:30,2003-12-19T01:00,17.461,A,,
vaBD000163,e1,KwH,2003-12-19T01:00,2003-12-19T01:30,1.5,E02,,
vaBD000163,e1,KwH,2003-12-19T01:30,2003-12-19T02:00,3.4,F14,79,No access
vaBD000163,e1,KwH,2003-12-19T02:00,2003-12-19T02:30,0.5,F14,79,No access
vaBD000163,e1,KwH,2003-12-19T02:30,2003-12-19T03:00,0,S99,0,"""Cable"" cut"
vaBD000163,e1,KwH,2003-12-19T03:00,2003-12-19T03:30,1.05,N,,Why?
vaBD000163,e1,KwH,2003-12-19T03:30,2003-12-19T04:00,9999999.9999,A,999,
vaBD000163,e1,KwH,2003-12-19T04:00,2003-12-19T04:30,10,A,999,
vaBD000163,e1,KwH,2003-12-19T04:30,2003-12-19T05:00,20,A,999,
vaBD000163,e1,KwH,2003-12-19T05:00,2003-12-19T05:30,1,A,999,
vaBD000163,e1,KwH,2003-12-19T05:30,2003-12-19T06:00,1,A,999,
vaBD000163,e1,KwH,2003-12-19T06:00,2003-12-19T06:30,1,A,999,
vaBD000163,e1,KwH,2003-12-19T06:30,2003-12-19T07:00,1,A,999,
vaBD000163,e1,KwH,2003-12-19T07:00,2003-12-19T07:30,1,A,999,
vaBD000163,e1,KwH,2003-12-19T07:30,2003-12-19T08:00,1,A,999,
vaBD000163,e1,KwH,2003-12-19T08:00,2003-12-19T08:30,1,A,999,
vaBD000163,e1,KwH,2003-12-19T08:30,2003-12-19T09:00,1,A,999,
vaBD000163,e1,KwH,2003-12-19T09:00,2003-12-19T09:30,1,A,999,
vaBD000163,e1,KwH,2003-12-19T09:30,2003-12-19T10:00,1,A,999,
vaBD000163,e1,KwH,2003-12-19T10:00,2003-12-19T10:30,1,A,999,
vaBD000163,e1,KwH,2003-12-19T10:30,2003-12-19T11:00,1,A,999,
vaBD000163,e1,KwH,2003-12-19T11:00,2003-12-19T11:30,1,A,999,
vaBD000163,e1,KwH,2003-12-19T11:30,2003-12-19T12:00,1,A,999,
vaBD000163,e1,KwH,2003-12-19T12:00,2003-12-19T12:30,1,A,999,
vaBD000163,e1,KwH,2003-12-19T12:30,2003-12-19T13:00,1,A,999,
vaBD000163,e1,KwH,2003-12-19T13:00,2003-12-19T13:30,1,A,999,
vaBD000163,e1,KwH,2003-12-19T13:30,2003-12-19T14:00,1,A,999,
vaBD000163,e1,KwH,2003-12-19T14:00,2003-12-19T14:30,1,A,999,
vaBD000163,e1,KwH,2003-12-19T14:30,2003-12-19T15:00,1,A,999,
vaBD000163,e1,KwH,2003-12-19T15:00,2003-12-19T15:30,1,A,999,
vaBD000163,e1,KwH,2003-12-19T15:30,2003-12-19T16:00,1,A,999,
vaBD000163,e1,KwH,2003-12-19T16:00,2003-12-19T16:30,1,A,999,
vaBD000163,e1,KwH,2003-12-19T16:30,2003-12-19T17:00,1,A,999,
vaBD000163,e1,KwH,2003-12-19T17:00,2003-12-19T17:30,1,A,999,
vaBD000163,e1,KwH,2003-12-19T17:30,2003-12-19T18:00,1,A,999,
vaBD000163,e1,KwH,2003-12-19T18:00,2003-12-19T18:30,1,A,999,
vaBD000163,e1,KwH,2003-12-19T18:30,2003-12-19T19:00,1,A,999,
vaBD000163,e1,KwH,2003-12-19T19:00,2003-12-19T19:30,1,A,999,
vaBD000163,e1,KwH,2003-12-19T19:30,2003-12-19T20:00,1,A,999,
vaBD000163,e1,KwH,2003-12-19T20:00,2003-12-19T20:30,1,A,999,
vaBD000163,e1,KwH,2003-12-19T20:30,2003-12-19T21:00,1,A,999,
vaBD000163,e1,KwH,2003-12-19T21:00,2003-12-19T21:30,1,A,999,
vaBD000163,e1,KwH,2003-12-19T21:30,2003-12-19T22:00,1,A,999,
vaBD000163,e1,KwH,2003-12-19T22:00,2003-12-19T22:30,1,A,999,
vaBD000163,e1,KwH,2003-12-19T22:30,2003-12-19T23:00,1,A,999,
vaBD000163,e1,KwH,2003-12-19T23:00,2003-12-19T23:30,1,A,999,
vaBD000163,e1,KwH,2003-12-19T23:30,2003-12-20T00:00,1,A,999,
"#;

    const V_DAY_AS_DAILY: &str = "nmi,suffix,unit,date,sum\nvaBD000163,e1,KwH,2003-12-19,10000091.9109\n";

    #[test]
    fn a_v_day_of_half_hours() {
        let file = nem12(V_DAY);
        assert_eq!(text(csv(file.as_bytes())), V_DAY_AS_CSV);
        assert_eq!(text(daily(file.as_bytes())), V_DAY_AS_DAILY);
    }

    #[test]
    fn intervals_of_each_length() {
        let channel_15 = CHANNEL_30.replace(",30,", ",15,");
        let file = nem12(&format!("{channel_15}{}", day("20030501", 96, "1", "A,,")));
        let lines = csv_lines(&file);
        assert_eq!(lines.len(), 96);
        for (index, line) in [
            (0, "VABD000163,E1,kWh,2003-05-01T00:00,2003-05-01T00:15,1,A,,"),
            (1, "VABD000163,E1,kWh,2003-05-01T00:15,2003-05-01T00:30,1,A,,"),
            (3, "VABD000163,E1,kWh,2003-05-01T00:45,2003-05-01T01:00,1,A,,"),
            (41, "VABD000163,E1,kWh,2003-05-01T10:15,2003-05-01T10:30,1,A,,"),
            (95, "VABD000163,E1,kWh,2003-05-01T23:45,2003-05-02T00:00,1,A,,"),
        ] {
            assert_eq!(lines[index], line);
        }
        let channel_5 = CHANNEL_30.replace(",30,", ",5,");
        let file = nem12(&format!("{channel_5}{}", day("20030501", 288, "1", "A,,")));
        let lines = csv_lines(&file);
        assert_eq!(lines.len(), 288);
        for (index, line) in [
            (0, "VABD000163,E1,kWh,2003-05-01T00:00,2003-05-01T00:05,1,A,,"),
            (1, "VABD000163,E1,kWh,2003-05-01T00:05,2003-05-01T00:10,1,A,,"),
            (11, "VABD000163,E1,kWh,2003-05-01T00:55,2003-05-01T01:00,1,A,,"),
            (125, "VABD000163,E1,kWh,2003-05-01T10:25,2003-05-01T10:30,1,A,,"),
            (287, "VABD000163,E1,kWh,2003-05-01T23:55,2003-05-02T00:00,1,A,,"),
        ] {
            assert_eq!(lines[index], line);
        }
    }

    #[test]
    fn the_last_interval_ends_with_the_day() {
        for (date, start, end) in [
            ("19000101", "1900-01-01T23:30", "1900-01-02T00:00"),
            ("19000228", "1900-02-28T23:30", "1900-03-01T00:00"),
            ("20000228", "2000-02-28T23:30", "2000-02-29T00:00"),
            ("20030228", "2003-02-28T23:30", "2003-03-01T00:00"),
            ("20030430", "2003-04-30T23:30", "2003-05-01T00:00"),
            ("20030909", "2003-09-09T23:30", "2003-09-10T00:00"),
            ("20031031", "2003-10-31T23:30", "2003-11-01T00:00"),
            ("20031231", "2003-12-31T23:30", "2004-01-01T00:00"),
            ("20040228", "2004-02-28T23:30", "2004-02-29T00:00"),
            ("20040229", "2004-02-29T23:30", "2004-03-01T00:00"),
            ("21000228", "2100-02-28T23:30", "2100-03-01T00:00"),
            ("21991231", "2199-12-31T23:30", "2200-01-01T00:00"),
        ] {
            let lines = csv_lines(&nem12(&format!("{CHANNEL_30}{}", day(date, 48, "1", "A,,"))));
            assert_eq!(lines[47], format!("VABD000163,E1,kWh,{start},{end},1,A,,"));
        }
    }

    #[test]
    fn channels_and_days_stand_in_file_order() {
        let other = "200,0000000000,E1Q1,1,B1,,,pf,30,\r\n";
        let file = nem12(&format!(
            "{CHANNEL_30}{}{}{other}{}",
            day("20030501", 48, "1", "A,,"),
            day("20030601", 48, "2.50", "E52,77,"),
            day("19991231", 48, "0.95", "N,,"),
        ));
        let lines = csv_lines(&file);
        assert_eq!(lines.len(), 3 * 48);
        assert_eq!(lines[47], "VABD000163,E1,kWh,2003-05-01T23:30,2003-05-02T00:00,1,A,,");
        assert_eq!(lines[48], "VABD000163,E1,kWh,2003-06-01T00:00,2003-06-01T00:30,2.5,E52,77,");
        assert_eq!(lines[95], "VABD000163,E1,kWh,2003-06-01T23:30,2003-06-02T00:00,2.5,E52,77,");
        assert_eq!(lines[96], "0000000000,B1,pf,1999-12-31T00:00,1999-12-31T00:30,0.95,N,,");
        assert_eq!(lines[143], "0000000000,B1,pf,1999-12-31T23:30,2000-01-01T00:00,0.95,N,,");
        assert_eq!(
            daily_lines(&file),
            ["VABD000163,E1,kWh,2003-05-01,48", "VABD000163,E1,kWh,2003-06-01,120", "0000000000,B1,pf,1999-12-31,45.6",]
        );
    }

    #[test]
    fn values_are_exact_and_have_no_needless_zeros() {
        let channel = CHANNEL_30.replace("kWh", "MWh");
        for (value, written, sum) in [
            ("0", "0", "0"),
            ("0000000.000000", "0", "0"),
            ("0.5", "0.5", "24"),
            ("0.50", "0.5", "24"),
            ("0.000001", "0.000001", "0.000048"),
            ("1.000001", "1.000001", "48.000048"),
            ("1.100000", "1.1", "52.8"),
            ("5.0", "5", "240"),
            ("10", "10", "480"),
            ("0000100", "100", "4800"),
            ("003.40", "3.4", "163.2"),
            ("1234567.123456", "1234567.123456", "59259221.925888"),
            ("9999999.999999", "9999999.999999", "479999999.999952"),
        ] {
            let file = nem12(&format!("{channel}{}", day("20030501", 48, value, "A,,")));
            let line = format!("VABD000163,E1,MWh,2003-05-01T00:00,2003-05-01T00:30,{written},A,,");
            assert_eq!(csv_lines(&file)[0], line);
            assert_eq!(daily_lines(&file), [format!("VABD000163,E1,MWh,2003-05-01,{sum}")]);
        }
    }

    #[test]
    fn the_largest_sum_of_a_day() {
        let channel = "200,VABD000163,E1Q1,1,E1,N1,METSER123,mva,5,20040120\r\n";
        let file = nem12(&format!("{channel}{}", day("20030501", 288, "9999999.999999", "A,,")));
        assert_eq!(daily_lines(&file), ["VABD000163,E1,mva,2003-05-01,2879999999.999712"]);
    }

    /// Descriptions, and what stands for them in a table.
    const DESCRIPTIONS: [(&str, &str); 11] = [
        ("", ""),
        ("No access", "No access"),
        ("it's; 'fine' \\ = -1", "it's; 'fine' \\ = -1"),
        ("\"", "\"\"\"\""),
        ("\"\"", "\"\"\"\"\"\""),
        ("a\"b", "\"a\"\"b\""),
        ("a\"\"b", "\"a\"\"\"\"b\""),
        ("\"a", "\"\"\"a\""),
        ("a\"", "\"a\"\"\""),
        ("\"a\"", "\"\"\"a\"\"\""),
        ("a \"b\" c \"d\"", "\"a \"\"b\"\" c \"\"d\"\"\""),
    ];

    #[test]
    fn descriptions_with_quotes_are_quoted() {
        for (description, written) in DESCRIPTIONS {
            let file = nem12(&format!("{CHANNEL_30}{}", day("20030501", 48, "1", &format!("A,7,{description}"))));
            let line = format!("VABD000163,E1,kWh,2003-05-01T12:00,2003-05-01T12:30,1,A,7,{written}");
            assert_eq!(csv_lines(&file)[24], line);
        }
        let longest = "\"".repeat(240);
        let file = nem12(&format!("{CHANNEL_30}{}", day("20030501", 48, "1", &format!("A,7,{longest}"))));
        let line = format!("VABD000163,E1,kWh,2003-05-01T12:00,2003-05-01T12:30,1,A,7,{}", "\"".repeat(482));
        assert_eq!(csv_lines(&file)[24], line);
    }

    // --- Accumulations ---

    #[test]
    fn a_line_for_each_250_and_none_for_550s() {
        let file = nem13(concat!(
            "250,1234567890,1141,01,11,11,METSERG6,E,000021.2,20031001103230,A,,,000534.5,20040201100030,E64,77,,",
            "343.5,kWh,20040509,20040202125010,20040203000130\r\n",
            "550,N,,A,\r\n",
            "250,nmi0000001,1141,,b1,,,I,1,20230409062035,S14,79,\"previous\",2,20230708000000,F05,0,\"current\" one,",
            "0001225.10,mVaRh,,20230709203911,\r\n",
            "250,1234567890,1141,01,11,11,METSERG6,E,5,21991231235959,E64,0,why,4,19000101000001,A,,,0.0,PF,,",
            "20040202125010,\r\n",
            "550,N,886422,A,1\r\n",
        ));
        assert_eq!(
            csv_lines(&file),
            [
                "1234567890,11,kWh,2003-10-01T10:32:30,2004-02-01T10:00:30,343.5,E64,77,",
                "nmi0000001,b1,mVaRh,2023-04-09T06:20:35,2023-07-08T00:00:00,1225.1,F05,0,\"\"\"current\"\" one\"",
                "1234567890,11,PF,2199-12-31T23:59:59,1900-01-01T00:00:01,0,A,,",
            ]
        );
        assert_eq!(daily(file.as_bytes()), Ok(DAILY_HEADING.as_bytes().to_vec()));
    }

    #[test]
    fn the_current_reads_description_is_quoted() {
        for (description, written) in DESCRIPTIONS {
            let file = nem13(&format!(
                "250,1234567890,1141,01,11,11,METSERG6,E,1,20031001103230,A,,\"x,2,20040201100030,A,7,{description},\
                 3,kWh,,20040202125010,\r\n"
            ));
            let line = format!("1234567890,11,kWh,2003-10-01T10:32:30,2004-02-01T10:00:30,3,A,7,{written}");
            assert_eq!(csv_lines(&file), [line]);
        }
    }

    // --- Refused files ---

    #[test]
    fn a_refused_file_has_no_table() {
        let accepted = nem12(V_DAY);
        for (file, number) in [
            (String::new(), 2),
            (accepted.replace("900\r\n", ""), 2),
            (accepted.replace("900\r\n", "900"), 2),
            (accepted.replace("Why?", "Why\u{7f}"), 3),
            (accepted.replace("KwH", "KwJ"), 6),
            (accepted.replace("S99,0,", "S99,,"), 7),
            (accepted.replace("20031220000000", "20031219000000"), 12),
            (accepted.clone() + "900\r\n", 13),
        ] {
            for table in [csv, daily] {
                assert_eq!(table(file.as_bytes()).map_err(|refusal| refusal.number), Err(number), "{file}");
            }
        }
    }
}
