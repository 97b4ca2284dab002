//! Steps of a controller node: kinds 3 to 7.

use crate::codes::{ensure, Outcome, Refusal};
use crate::mastership::{ElectionId, NO_TERM};
use crate::state::{row, Request, Response, State, Status, Stream};

impl State<'_> {
    pub(crate) fn learn(&mut self, node: u8) -> Outcome {
        let controller = &mut self.controllers[row(node)];
        match controller.events.front() {
            Some(event) if event.term >= controller.learned.term => {
                controller.learned = event;
                controller.events.drop_front();
                Ok(())
            }
            _ => Err(Refusal::NotAllowed),
        }
    }

    pub(crate) fn send_update(&mut self, node: u8) -> Outcome {
        let learned = &self.controllers[row(node)].learned;
        let stream = &mut self.streams[row(node)];
        let news = stream.open && learned.term > NO_TERM && learned.term > stream.term;
        match learned.place(node) {
            Some(place) if news => {
                let id = ElectionId::of(learned.term, self.nodes, place);
                send(stream, Request::Update(id, learned.term))?;
                stream.term = learned.term;
                Ok(())
            }
            _ => Err(Refusal::NotAllowed),
        }
    }

    pub(crate) fn receive_update(&mut self, node: u8) -> Outcome {
        let controller = &mut self.controllers[row(node)];
        let stream = &mut self.streams[row(node)];
        match stream.head_response() {
            Some(Response::Update(status, id)) => {
                let learned = &controller.learned;
                controller.device_says_master = status == Status::Ok
                    && learned.master == node
                    && id == ElectionId::of(learned.term, self.nodes, 0)
                    && stream.term == learned.term;
                stream.responses.drop_front();
                Ok(())
            }
            _ => Err(Refusal::NotAllowed),
        }
    }

    pub(crate) fn send_write(&mut self, node: u8) -> Outcome {
        let controller = &self.controllers[row(node)];
        let stream = &mut self.streams[row(node)];
        let learned = &controller.learned;
        let may_write = stream.open
            && learned.term > NO_TERM
            && learned.master == node
            && controller.device_says_master;
        ensure(may_write, Refusal::NotAllowed)?;
        let id = ElectionId::of(learned.term, self.nodes, 0);
        send(stream, Request::Write(id, learned.term))
    }

    pub(crate) fn receive_write(&mut self, node: u8) -> Outcome {
        let stream = &mut self.streams[row(node)];
        match stream.head_response() {
            Some(Response::Write(_)) => {
                stream.responses.drop_front();
                Ok(())
            }
            _ => Err(Refusal::NotAllowed),
        }
    }
}

fn send(stream: &mut Stream, request: Request) -> Outcome {
    ensure(!stream.requests.is_full(), Refusal::QueueFull)?;
    stream.requests.push(request);
    Ok(())
}
