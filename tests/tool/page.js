// Put behind the script of a page: shows every block in turn, one by a click, the next by the keyboard, and leaves what the page then
// says of it in an element of its own, a line for each heading, paragraph, item or row.
{
    const box = map.getBoundingClientRect();
    const clickOn = (block) => map.dispatchEvent(new MouseEvent("click",
        {clientX: box.left + leftOf(block) + heap.side / 2, clientY: box.top + topOf(block) + heap.side / 2}));
    const press = (key) => map.dispatchEvent(new KeyboardEvent("keydown", {key, cancelable: true}));
    const lineOf = (part) => part.tagName === "TR" ? [...part.children].map((cell) => cell.textContent).join(" ") : part.textContent;
    const told = document.createElement("pre");
    told.id = "told";
    for (let block = first; block <= last; block++) {
        if (block % 2 === 0)
            clickOn(block);
        else
            press("ArrowRight");
        for (const part of shown.querySelectorAll("h2, h3, p, li, tr"))
            told.append(lineOf(part) + "\n");
    }
    clickOn(first);
    const link = shown.querySelector("button.to");
    if (link !== null) {
        link.focus();
        link.click();
        if (document.activeElement !== shown.querySelector("h2"))
            told.append("the focus is lost\n");
    }
    press("Home");
    told.append("Home: " + location.hash + "\n");
    press("End");
    told.append("End: " + location.hash + "\n");
    document.getElementById("number").value = last + 1;
    document.getElementById("go").requestSubmit();
    told.append(shown.textContent + "\n");
    document.body.append(told);
}
