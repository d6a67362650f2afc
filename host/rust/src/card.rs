//! A card: its image, the provider lent to it, and a tap.

use crate::provider::{questions_of, Provider};
use crate::requests::Codes;
use crate::response::Response;
use crate::view::View;
use crate::{calls, Error};

const LONGEST_WAIT: u32 = 120; // seconds

/// A practice card. The library keeps nothing: the image is the card.
#[derive(Clone, Debug)]
pub struct Card<P> {
    image: Vec<u8>,
    pub provider: P,
}

impl<P: Provider> Card<P> {
    /// The fresh card of a personalisation sheet: `host/examples` has two.
    pub fn from_sheet(sheet: &str, provider: P) -> Result<Self, Error> {
        let image = calls::personalise(sheet.as_bytes()).map_err(Error::BadSheet)?;
        Ok(Card { image, provider })
    }

    /// The card that [`image`](Card::image) was, or that a card file of `tap` holds.
    pub fn from_image(image: &[u8], provider: P) -> Result<Self, Error> {
        // Whether it is a card is looked at before the request.
        calls::ask(image, &[], &[0; calls::DRAW]).map_err(Error::of)?;
        Ok(Card { image: image.to_vec(), provider })
    }

    /// One request. A refusal is a response like any other; an error means that there was no tap, and nothing has changed.
    ///
    /// After a wrong code, or with a pause on the sheet, the card makes its holder wait: the response is
    /// [`paused`](Response::paused), and says how long.
    pub fn tap(&mut self, request: &[u8]) -> Result<Response, Error> {
        let draw = self.provider.draw();
        let asked = calls::ask(&self.image, request, &draw).map_err(Error::of)?;
        let questions = questions_of(&asked, View(&self.image).cid());
        let answers = self.provider.answer(&questions);
        let (response, reason, next) = calls::settle(&self.image, request, &draw, &answers).map_err(Error::of)?;
        self.image = next;
        Ok(Response::new(response, request.get(1).copied().unwrap_or(0), reason))
    }

    /// One request, sent again as long as the card makes its holder wait, each time as a tap of its own. On this card a second is a
    /// sending, whatever the clock says.
    pub fn tap_waiting(&mut self, request: &[u8]) -> Result<Response, Error> {
        let mut response = self.tap(request)?;
        for _ in 0..LONGEST_WAIT {
            if !response.paused() {
                break;
            }
            response = self.tap(request)?;
        }
        Ok(response)
    }

    /// The card leaves the field. A request that it holds is forgotten, so that its wait begins anew; wrong codes stay counted.
    pub fn power_off(&mut self) -> Result<(), Error> {
        self.image = calls::power_off(&self.image).map_err(Error::of)?;
        Ok(())
    }
}

impl<P> Card<P> {
    /// The whole card: keep it, and [`from_image`](Card::from_image) goes on where this one stands.
    pub fn image(&self) -> &[u8] {
        &self.image
    }

    /// What the image tells: Status, Remaining, counters, data.
    pub fn view(&self) -> View<'_> {
        View(&self.image)
    }

    /// The card's own codes, for the functions of [`requests`](crate::requests); the CVC where the card asks for one.
    pub fn codes(&self) -> Codes {
        let view = self.view();
        Codes {
            cid: Some(view.cid().to_vec()),
            pin1: Some(view.pin1().to_vec()),
            pin2: Some(view.pin2().to_vec()),
            cvc: view.cvc_used().then(|| view.cvc().to_vec()),
        }
    }
}
