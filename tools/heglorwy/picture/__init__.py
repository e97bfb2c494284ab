"""Pictures of a tariff's week, of its fares and of a trip."""
