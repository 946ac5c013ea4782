# What both pictures are drawn with. Sizes are in pixels. A colour stands for an answer, and the answer's word always stands beside it.
BEGIN {
    ink = "#1b1f24"
    grey = "#57606a"
    colour["announced"] = colour["signed"] = "#0b5394"
    colour["kept"] = grey
    colour["delivered"] = "#17662b"
    colour["noted"] = "#8a4b00"
    colour["refused"] = "#a61b1b"
    fill["announced"] = fill["signed"] = "#e8f1fb"
    fill["kept"] = "#f1f2f4"
    fill["delivered"] = "#e2f4e6"
    fill["noted"] = "#fff3df"
    fill["refused"] = "#ffffff"
}

# The ground is white, so that a page with a dark ground shows dark words on white as well.
function begin(width, height, title, words) {
    printf "<svg xmlns=\"http://www.w3.org/2000/svg\" width=\"%d\" height=\"%d\" viewBox=\"0 0 %d %d\"", width, height, width, height
    printf " role=\"img\" aria-labelledby=\"title description\""
    printf " font-family=\"Helvetica, Arial, 'DejaVu Sans', sans-serif\" font-size=\"13\" fill=\"%s\">\n", ink
    printf "<title id=\"title\">%s</title>\n<desc id=\"description\">%s</desc>\n<defs>\n", title, words
    # an array has no order of its own
    head("announced"); head("signed"); head("kept"); head("delivered"); head("noted"); head("refused")
    print "</defs>"
    printf "<rect width=\"%d\" height=\"%d\" fill=\"#ffffff\"/>\n", width, height
    text(20, 32, title, "font-size=\"20\" font-weight=\"bold\"")
}

function head(answer) {
    printf "<marker id=\"%s\" viewBox=\"0 0 10 10\" refX=\"9\" refY=\"5\" markerWidth=\"10\" markerHeight=\"10\"", answer
    printf " markerUnits=\"userSpaceOnUse\" orient=\"auto\"><path d=\"M0 0.5 L10 5 L0 9.5 z\" fill=\"%s\"/></marker>\n", colour[answer]
}

function text(x, y, words, style) {
    printf "<text x=\"%d\" y=\"%d\" %s>%s</text>\n", x, y, style, words
}

function box(x, y, width, height, inside, outside, style) {
    printf "<rect x=\"%d\" y=\"%d\" width=\"%d\" height=\"%d\" rx=\"6\" fill=\"%s\" stroke=\"%s\" %s/>\n", x, y, width, height, inside, outside, style
}

# For eyes that do not tell the colours apart a box is thick where it is delivered, box and line are dashed where it is refused, and dotted where it is
# noted.
function edge(answer) {
    return "stroke-width=\"" (answer == "delivered" ? 2.5 : 1.5) "\"" dashed(answer)
}

function dashed(answer) {
    if (answer == "refused") return " stroke-dasharray=\"5 3\""
    return answer == "noted" ? " stroke-dasharray=\"2 2\"" : ""
}

function line(x, y, to_x, to_y, answer, width, end) {
    printf "<line x1=\"%d\" y1=\"%d\" x2=\"%d\" y2=\"%d\"", x, y, to_x, to_y
    printf " stroke=\"%s\" stroke-width=\"%s\"%s%s/>\n", colour[answer], width, dashed(answer), end
}

function arrow(x, y, to_x, to_y, answer) {
    line(x, y, to_x, to_y, answer, 1.8, " marker-end=\"url(#" answer ")\"")
}

# the mark of an answer that sends
function waves(x, y, answer) {
    printf "<path d=\"M%d %d q4 4 0 8 M%d %d q7 7 0 14\" fill=\"none\" stroke=\"%s\" stroke-width=\"1.8\"/>\n", x, y - 4, x + 4, y - 7, colour[answer]
}

function sends(answer) {
    return answer == "announced" || answer == "signed" || answer == "delivered"
}
