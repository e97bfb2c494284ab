"""Whether the receipts of rolls follow one another as one store prints them: with numbers that rise, and with seconds that
don't fall."""


def named(receipt):
    """What a person finds a receipt by."""
    fields = receipt.fields
    return f"receipt {fields['receipt']} of {fields['start']} to {fields['finish']}, total {fields['total']} ({receipt.where})"


def disorder_in(receipts):
    """A line for each thing in which a receipt isn't in order, with the other one that it doesn't fit."""
    by_number, newest, above = {}, None, None
    for receipt in receipts:
        fields, number = receipt.fields, receipt.fields["receipt"]
        if number in by_number:
            yield f"{named(receipt)} has the number of another one: {named(by_number[number])}"
        elif newest and number < newest.fields["receipt"]:
            yield f"{named(receipt)} has a lower number than one above it: {named(newest)}"
        if above and fields["start"] < above.fields["finish"]:
            yield f"{named(receipt)} starts before the one above it finishes: {named(above)}"
        if fields["start"][:10] < fields["secured"]:
            yield f"{named(receipt)} starts before the day of securing, {fields['secured']}"
        by_number.setdefault(number, receipt)
        newest = max(newest or receipt, receipt, key=lambda each: each.fields["receipt"])
        above = receipt
