"""Blocks of proofs with a line for each refusal. The format of proofs has a blank line before the comment that ends a block."""

from generated.sources import OF_CODE, values


def pattern(row):
    arguments = " ".join(name for name, _ in values(row))
    return f"(refusal.{row['variant']} {arguments})" if arguments else f"refusal.{row['variant']}"


def proof_cases(law, answer):
    return [f"{law} {pattern(row)} = {answer}" for row in OF_CODE] + [""]
