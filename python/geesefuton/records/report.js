"use strict";
for (const team of document.querySelectorAll(".story")) {
  const moments = JSON.parse(team.querySelector("script").textContent);
  const slider = team.querySelector("input"), said = team.querySelector("output");
  const body = team.querySelector("tbody");
  const show = () => {
    const { worth, cash, goods } = moments[slider.value];
    said.textContent = `Tick ${slider.value}: best plan worth ${number(worth)}, ${money(cash)}`;
    body.replaceChildren(...goods.map(cells => {
      const row = document.createElement("tr");
      for (const text of cells) row.insertCell().textContent = text;
      row.cells[0].className = "t";
      return row;
    }));
  };
  slider.addEventListener("input", show);
  show();
}
