"""The verdict on a certificate in a file."""

from certificate_parts.clauses import check
from certificate_parts.faults import BadLine, Fault, Invalid
from certificate_parts.files import read_file
from certificate_parts.hierarchies import read_hierarchy
from certificate_parts.network import read_network
from certificate_parts.texts import Kind, read_certificate

STATUSES = {"valid": 0, "invalid": 11, "bad": 12}  # those of `modeplan verify`, by the first word of the verdict


def verdict_on(region: str, file: str, hierarchy: str | None) -> str:
    """`valid`, `invalid CLAUSE AT` or `bad LINE`; Fault where a file cannot be used."""
    network = read_network(region)
    over = read_hierarchy(hierarchy) if hierarchy is not None else None
    try:
        certificate = read_certificate(read_file(file))
        if certificate.kind is Kind.LATE and over is not None:
            raise Fault(file, "a late certificate has no hierarchy; check it without --hierarchy")
        check(network, over, certificate)
    except BadLine as fault:
        return f"bad {fault.at}"
    except Invalid as fault:
        return f"invalid {fault.clause} {fault.at}"
    return "valid"
