# The life of a record: what a unit keeps of one slot, and every way in which a call changes it or leaves it as it is.
# The cases are those of update and update_reasons in crates/protocol/specs/Update.antt, and of announcing in crates/calls/specs/Broadcast.antt.

# a state: its name, and from `top` on what the record has in it
function state(x, y, width, height, name, top, has, more) {
    box(x, y, width, height, "#ffffff", ink, "stroke-width=\"2.5\"")
    text(x + 16, y + height / 2 + 7, name, "font-size=\"20\" font-weight=\"bold\"")
    text(x + 138, top, has)
    text(x + 138, top + 18, more)
}

# what a record has beside the body that it holds
function noted_beside(x, y, width, first, second, third) {
    box(x, y, width, 68, fill["noted"], colour["noted"], edge("noted"))
    text(x + 10, y + 21, first)
    text(x + 10, y + 39, second)
    text(x + 10, y + 57, third)
}

# what the unit answers, and whether it sends
function answered(x, y, answer, number, remark,    words, width) {
    words = answer (number ? " " number : "")
    width = 8 * length(words) + 22
    box(x, y, width, 22, fill[answer], colour[answer], edge(answer))
    text(x + width / 2, y + 16, words, "text-anchor=\"middle\" font-weight=\"bold\" fill=\"" colour[answer] "\"")
    if (sends(answer)) waves(x + width + 9, y + 11, answer)
    text(x + width + (sends(answer) ? 24 : 10), y + 16, remark)
}

# a call in the case of two lines, the signers that the record has afterwards, its note, and the answer
function card(x, y, width, answer, call, first, second, signers, note, remark) {
    box(x, y, width, 138, "#ffffff", colour[answer], "stroke-width=\"1\"")
    text(x + 10, y + 20, call, "font-weight=\"bold\"")
    text(x + 10, y + 39, first)
    text(x + 10, y + 56, second)
    text(x + 10, y + 77, "signers: " signers, "font-style=\"italic\"")
    text(x + 10, y + 94, "noted: " note, "font-style=\"italic\"")
    answered(x + 10, y + 106, answer, "", remark)
}

# a call that leads from the state above, whose edge is at `top`, to the state below, whose edge is at `bottom`
function way(x, top, bottom, y, answer, call, first, second, signers, note) {
    line(x + 96, top, x + 96, y, answer, 1.8)
    arrow(x + 96, y + 138, x + 96, bottom - 2, answer)
    card(x, y, 192, answer, call, first, second, signers, note, "sends")
}

# a call after which the state is what it was
function loop(y, answer) {
    line(620, y, 668, y, answer, 1.8)
    arrow(668, y + 14, 623, y + 14, answer)
}

function refusal(y, height, call) {
    box(668, y, 216, height, "#ffffff", colour["refused"], "stroke-width=\"1\"")
    text(678, y + 20, call, "font-weight=\"bold\"")
}

BEGIN {
    begin(900, 984, "The life of a record", description())
    text(20, 56, "What a unit keeps of one slot, and what announcing and taking do to it. We are that unit; q is the quorum of its table.")

    arrow(318, 68, 318, 98, "kept")
    text(332, 86, "open the day: every record becomes empty")
    state(20, 100, 600, 60, "empty", 126, "all zero: no body, no signers, nothing noted", "we have signed nothing in this slot")
    state(222, 378, 398, 222, "held", 432, "one body, which we have signed", "signers: sender, us, others")
    noted_beside(350, 478, 258, "noted beside it: nothing, or one", "other body with the signers seen", "for it. These are never counted.")
    state(20, 798, 600, 78, "delivered", 823, "one body, q or more signers", "noted: nothing, or one other body")
    text(158, 859, "showing gives the body; it stays until the next day is opened")

    way(20, 160, 798, 200, "delivered", "take a bundle", "if its signers and we", "are q or more", "these", "nothing")
    way(222, 160, 378, 200, "announced", "announce a body", "if the slot is ours, our", "lowest free number", "we alone", "nothing")
    way(428, 160, 378, 200, "signed", "take a bundle", "if its signers and we", "are fewer than q", "these", "nothing")
    way(222, 600, 798, 626, "delivered", "take this body", "if record and bundle have", "q or more signers in all", "both together", "as before")
    way(428, 600, 798, 626, "delivered", "take another body", "if this bundle alone has", "q or more, without us", "the bundle's", "what was held")

    refusal(82, 96, "take a bundle")
    text(678, 121, "if it says that we signed,")
    text(678, 138, "which we did not")
    answered(678, 146, "refused", 23)
    loop(123, "refused")

    card(668, 276, 216, "kept", "take this body", "if record and bundle have", "fewer than q in all", "both together", "as before", "sends nothing")
    loop(390, "kept")
    card(668, 426, 216, "noted", "take another body", "if this bundle has fewer", "than q, without us", "as before", "its signers join", "sends nothing")
    loop(488, "noted")
    refusal(576, 146, "take another body")
    text(678, 615, "if it says that we signed")
    answered(678, 622, "refused", 23)
    text(678, 661, "else, if fewer than q signers,")
    text(678, 678, "and a third body is noted")
    answered(678, 686, "refused", 24)
    loop(580, "refused")

    refusal(801, 72, "take any bundle")
    answered(678, 833, "refused", 22)
    loop(830, "refused")

    text(20, 908, "Where a refusal applies it comes first: the call changes nothing and sends nothing. Otherwise it sends one bundle or none.")
    text(20, 928, "Not drawn are the refusals that come before these in every state: 1 to 8, 10, 20 and 21, and those of announcing.")
    text(20, 948, "Our own slot: announcing alone fills it. Empty, it refuses every bundle by 23, for the sender's signature is ours.")
    text(20, 968, "Announcing delivers nothing. A single unit has q = 1: its record is held with q signers, and its bundle's return delivers.")
    print "</svg>"
}

# the picture for those who do not see it
function description() {
    return "Three states: empty, held, delivered. Opening the day makes every record empty. " \
        "From empty: announcing a body in our own slot leads to held, signed by us alone, answered announced, and sends. " \
        "Taking a bundle whose signers and we are fewer than q leads to held, answered signed, and sends; with q or more to delivered, and sends. " \
        "Nothing is noted then. A bundle that says that we signed is refused by 23. " \
        "From held: taking this body joins the signers of record and bundle. Fewer than q stay held, answered kept, and nothing is sent; " \
        "q or more lead to delivered, and it sends. What is noted stays. Taking another body is refused by 23 if the bundle says that we signed. " \
        "With fewer than q signers it is refused by 24 if a third body is noted, and else noted beside the body that is held, which stays: " \
        "its signers join those of the note, answered noted, and nothing is sent. Noted signers are never counted. " \
        "With q or more in that one bundle the record becomes the bundle's, without our signature: delivered, and it sends; what was held is noted. " \
        "From delivered: every bundle is refused by 22."
}
