//! The fields in the text that protoc prints for many messages.

use reading::{Arbitration, Carried, ElectionId, Role, Status};

/// The updates in the text. Fields that the reader does not know are passed over.
pub fn updates(text: &str) -> Result<Vec<Arbitration>, String> {
    let mut updates: Vec<Arbitration> = Vec::new();
    walk(text, |path, value| {
        match (path, updates.last_mut()) {
            (["update"], _) => updates.push(Arbitration::default()),
            ([_, rest @ ..], Some(update)) => take(update, rest, value)?,
            _ => (),
        }
        Ok(())
    })?;
    Ok(updates)
}

/// What each response in the text carries.
pub fn responses(text: &str) -> Result<Vec<Carried>, String> {
    let mut responses: Vec<Carried> = Vec::new();
    walk(text, |path, value| {
        match (path, responses.last_mut()) {
            (["response"], _) => responses.push(Carried::Nothing),
            (["response", "arbitration"], Some(carried)) => {
                *carried = Carried::Arbitration(Arbitration::default());
            }
            (["response", name], Some(carried)) => *carried = other(name).unwrap_or(*carried),
            ([_, _, rest @ ..], Some(Carried::Arbitration(update))) => take(update, rest, value)?,
            _ => (),
        }
        Ok(())
    })?;
    Ok(responses)
}

/// The alternatives of a response that are not looked into.
fn other(name: &str) -> Option<Carried> {
    let names = ["packet", "digest", "idle_timeout_notification", "other"];
    let at = names.iter().position(|known| *known == name)?;
    Some(Carried::Other(at as u64 + 2))
}

type Taken = Result<(), std::num::ParseIntError>;

/// Goes through the lines: where a message begins with its path, and for a scalar
/// with its value too.
fn walk<'a>(
    text: &'a str,
    mut take: impl FnMut(&[&'a str], Option<&'a str>) -> Taken,
) -> Result<(), String> {
    let mut path = Vec::new();
    for line in text.lines().map(str::trim) {
        if line == "}" {
            path.pop();
        } else if let Some(name) = line.strip_suffix(" {") {
            path.push(name);
            take(&path, None).map_err(|error| format!("{line}: {error}"))?;
        } else if let Some((name, value)) = line.split_once(": ") {
            path.push(name);
            take(&path, Some(value)).map_err(|error| format!("{line}: {error}"))?;
            path.pop();
        }
    }
    Ok(())
}

/// What a line of an update says: a message embedded in it begins, or a scalar.
fn take(update: &mut Arbitration, path: &[&str], value: Option<&str>) -> Taken {
    match (path, value) {
        (_, Some(value)) => return set(update, path, value),
        (["role"], None) => update.role = Some(Role::default()),
        (["election_id"], None) => update.election_id = Some(ElectionId::default()),
        (["status"], None) => update.status = Some(Status::default()),
        _ => (),
    }
    Ok(())
}

fn set(update: &mut Arbitration, path: &[&str], value: &str) -> Taken {
    let Arbitration { device_id, role, election_id, status } = update;
    match (path, role, election_id, status) {
        (["device_id"], ..) => *device_id = value.parse()?,
        (["role", "id"], Some(role), ..) => role.id = value.parse()?,
        (["election_id", "high"], _, Some(id), _) => id.high = value.parse()?,
        (["election_id", "low"], _, Some(id), _) => id.low = value.parse()?,
        (["status", "code"], .., Some(status)) => status.code = value.parse()?,
        _ => (),
    }
    Ok(())
}
