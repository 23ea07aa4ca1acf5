export function View(props: { title: string }) {
  return <h1 className="title">It's {props.title}</h1>;
}
