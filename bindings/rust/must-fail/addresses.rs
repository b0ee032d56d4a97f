//! Wrong programs: a SAP where a station address is wanted, an address where a SAP is, and a bare number where either is. `run` has this
//! file compiled with each `wrong` below, which must be refused with the error named beside it and no other, and without any, which must
//! be taken.
use koyandefa::{
    write_token, Address, FunctionCode, GuardedInitiator, GuardedResponder, Header, Refusal, Sap, Settings, StationList,
};

pub fn header(station: Address, sap: Sap, fc: FunctionCode) -> Header {
    #[cfg(wrong = "sap_as_destination")] // E0308
    let header = Header { da: sap, sa: station, dsap: None, ssap: None, fc };
    #[cfg(wrong = "address_as_sap")] // E0308
    let header = Header { da: station, sa: station, dsap: Some(station), ssap: None, fc };
    #[cfg(wrong = "number_as_address")] // E0308
    let header = Header { da: 5, sa: station, dsap: None, ssap: None, fc };
    Header { da: station, sa: station, dsap: Some(sap), ssap: Some(sap), fc }
}

pub fn writer(station: Address, sap: Sap, buf: &mut [u8]) -> Result<usize, Refusal> {
    #[cfg(wrong = "sap_in_token")] // E0308
    let token = write_token(station, sap, buf)?;
    Ok(write_token(station, station, buf)?.len())
}

/// What was read is no less apart.
pub fn reader(header: &Header) -> (Option<Sap>, Address) {
    #[cfg(wrong = "address_read_as_sap")] // E0308
    return (Some(header.da), header.sa);
    (header.dsap, header.sa)
}

pub fn stations(list: &mut StationList, station: Address, sap: Sap) -> bool {
    #[cfg(wrong = "sap_witnessed")] // E0308
    list.witness(station, sap);
    #[cfg(wrong = "sap_asked_for")] // E0308
    let active = list.is_active(sap);
    #[cfg(wrong = "neighbour_as_sap")] // E0308
    let next: Sap = list.next();
    list.witness(station, station);
    list.next() == station
}

pub fn link(settings: &Settings, sap: Sap) -> Result<(GuardedInitiator, GuardedResponder), Refusal> {
    #[cfg(wrong = "initiator_with_a_sap")] // E0308
    let initiator = GuardedInitiator::new(settings.own, sap, 2, 0)?;
    #[cfg(wrong = "responder_with_a_sap")] // E0308
    let responder = GuardedResponder::new(sap, settings.own, 0)?;
    #[cfg(wrong = "settings_with_a_sap")] // E0308
    let settings = Settings { peer: sap, ..*settings };
    let initiator = GuardedInitiator::new(settings.own, settings.peer, settings.tries, 0)?;
    Ok((initiator, GuardedResponder::new(settings.peer, settings.own, 0)?))
}
