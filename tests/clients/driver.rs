//! Asks by the Rust client what the lines of standard input say, as tests/clients/run has them: driver PROGRAM TABLES.
use aliasplan::{Answer, Envelope, Error, Planner, Tables};
use std::io::{self, BufRead, Write};

fn line(out: &mut Vec<u8>, parts: &[&[u8]]) {
    out.extend(parts.concat());
    out.push(b'\n');
}

fn show(out: &mut Vec<u8>, answer: Answer) {
    let plan = match answer {
        Answer::Plan(plan) => plan,
        Answer::Refusal(reason) => return line(out, &[b"refused ", &reason]),
    };
    let (transactions, recipients) = (
        plan.transactions.len(),
        plan.transactions
            .iter()
            .map(|it| it.recipients.len())
            .sum::<usize>(),
    );
    out.extend(
        format!(
            "plan {transactions} transactions {recipients} recipients {} findings\n",
            plan.findings.len()
        )
        .bytes(),
    );
    for (it, number) in plan.transactions.iter().zip(1..) {
        out.extend(format!("transaction {number}\n").bytes());
        line(out, &[b"from <", &it.sender, b">"]);
        line(out, &[b"via ", &it.transport, b" ", &it.nexthop]);
        it.hosts
            .iter()
            .for_each(|host| line(out, &[b"host ", host]));
        it.recipients
            .iter()
            .for_each(|recipient| line(out, &[b"to <", recipient, b">"]));
    }
    plan.findings
        .iter()
        .for_each(|words| line(out, &[b"finding ", words]));
    line(out, &[b"end"]);
}

fn answer(
    out: &mut Vec<u8>,
    planner: &mut Planner,
    word: &[u8],
    envelope: Envelope,
    kept: &mut Vec<Envelope>,
) -> Result<(), Error> {
    match word {
        b"ask" => show(out, planner.ask(&envelope)?),
        b"keep" => kept.push(envelope),
        b"many" => planner
            .ask_many(&std::mem::take(kept))?
            .into_iter()
            .for_each(|it| show(out, it)),
        _ => match planner.change_tables()? {
            Tables::Changed(sum) => line(out, &[b"tables ok ", &sum]),
            Tables::Refused(reason) => line(out, &[b"tables refused ", &reason]),
        },
    }
    Ok(())
}

fn talk(words: &[String]) -> Result<(), Error> {
    let mut planner = Planner::start(&words[1], &words[2], &[])?;
    let mut kept = Vec::new();
    for text in io::stdin().lock().split(b'\n') {
        let mut text = text.map_err(Error::System)?;
        for byte in &mut text {
            *byte = match *byte {
                1 => b'\r',
                2 => b'\n',
                other => other,
            };
        }
        let mut words = text.split(|byte| *byte == b'\t').map(<[u8]>::to_vec);
        let word = words.next().unwrap_or_default();
        let envelope = Envelope {
            sender: words.next().unwrap_or_default(),
            recipients: words.collect(),
        };
        let mut out = Vec::new();
        if let Err(error) = answer(&mut out, &mut planner, &word, envelope, &mut kept) {
            show_error(&mut out, &error);
        }
        io::stdout()
            .write_all(&out)
            .and_then(|()| io::stdout().flush())
            .map_err(Error::System)?;
    }
    planner.end();
    println!("ended");
    Ok(())
}

fn show_error(out: &mut Vec<u8>, error: &Error) {
    let word: &[u8] = match error {
        Error::Address => b"address",
        Error::Ended => b"ended",
        Error::System(_) => b"system",
    };
    line(out, &[b"error ", word]);
}

fn main() {
    let words: Vec<String> = std::env::args().collect();
    if let Err(error) = talk(&words) {
        let mut out = Vec::new();
        show_error(&mut out, &error);
        print!("{}", String::from_utf8_lossy(&out));
    }
}
