"""The systematic part of the suite: scenarios made from tables, one for each field, bit, position, order and end."""
