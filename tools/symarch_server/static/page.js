// What a page does beyond links and forms: it takes a report that is dropped on it, and copies UUIDs.
"use strict";
const form = document.getElementById("drop");
if (form) {
  const file = document.getElementById("file");
  const chosen = document.getElementById("chosen");
  file.addEventListener("change", () => {
    chosen.textContent = file.files.length ? file.files[0].name : "";
    if (file.files.length) form.submit();
  });
  document.addEventListener("dragover", (event) => {
    event.preventDefault();
    form.classList.add("over");
  });
  document.addEventListener("dragleave", (event) => {
    if (!event.relatedTarget) form.classList.remove("over");
  });
  document.addEventListener("drop", (event) => {
    event.preventDefault();
    form.classList.remove("over");
    if (!event.dataTransfer.files.length) return;
    file.files = event.dataTransfer.files;
    file.dispatchEvent(new Event("change"));
  });
  // One that was gone back to is empty again.
  window.addEventListener("pageshow", () => form.reset());
}
for (const button of document.querySelectorAll("[data-copy]")) {
  button.addEventListener("click", () => {
    const area = document.createElement("textarea");
    area.value = button.dataset.copy;
    document.body.append(area);
    area.select();
    const isDone = document.execCommand("copy");
    area.remove();
    button.textContent = isDone ? "Copied" : "Not copied";
  });
}
